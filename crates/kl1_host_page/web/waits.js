// Goals that wait: a list, and a picture of who waits for which variable and who else has it.

import { $, draw, fill, make } from "./dom.js";

const MOST_DRAWN = 12;
const ROW = 34;

const short = (text, most) => (text.length > most ? `${text.slice(0, most - 1)}…` : text);

/** The variables that are waited for, each with the goals that wait for it and those that have it besides. */
function variables(goals) {
  const found = new Map();
  for (const goal of goals) {
    for (const { variable, holders } of goal.awaits) {
      const entry = found.get(variable) ?? { waiting: [], holders: new Set() };
      entry.waiting.push(goal.number);
      holders.forEach((holder) => entry.holders.add(holder));
      found.set(variable, entry);
    }
  }
  return found;
}

function node(kind, x, y, width, words, title) {
  return draw(
    "g",
    {},
    draw("rect", { class: kind, x, y: y - 11, width, height: 22, rx: kind === "goal" ? 3 : 11 }),
    draw("text", { x: x + 8, y: y + 4 }, words),
    draw("title", {}, title),
  );
}

/** A curve from one side of the picture to the other. */
function edge(kind, x1, y1, x2, y2) {
  const middle = (x1 + x2) / 2;
  return draw("path", { class: kind, d: `M${x1} ${y1} C${middle} ${y1} ${middle} ${y2} ${x2} ${y2}`, "marker-end": "url(#arrow)" });
}

function picture(goals, names, room) {
  const width = Math.max(300, Math.min(620, room));
  const drawn = goals.slice(0, MOST_DRAWN);
  const awaited = [...variables(drawn).entries()];
  const rowOf = new Map(drawn.map((goal, place) => [goal.number, place]));
  const y = (place) => 20 + place * ROW;
  const right = width - 76;
  const left = right - Math.max(50, Math.min(120, width / 5));
  const letters = Math.floor((left - 22) / 7.3);
  const parts = [
    draw("defs", {}, draw("marker", { id: "arrow", viewBox: "0 0 8 8", refX: 7, refY: 4, markerWidth: 7, markerHeight: 7, orient: "auto-start-reverse" }, draw("path", { d: "M0 0 L8 4 L0 8 z", fill: "currentColor" }))),
  ];
  awaited.forEach(([variable, { waiting, holders }], place) => {
    for (const goal of waiting) if (rowOf.has(goal)) parts.push(edge("waits", left, y(rowOf.get(goal)), right, y(place)));
    for (const goal of holders) if (rowOf.has(goal)) parts.push(edge("has", right, y(place), left, y(rowOf.get(goal)) + 6));
    parts.push(node("variable", right, y(place), 70, names(variable), `variable ${variable}`));
  });
  drawn.forEach((goal, place) => {
    parts.push(node("goal", 6, y(place), left - 6, short(`${goal.number}  ${goal.text}`, letters), goal.text));
  });
  const height = 12 + ROW * Math.max(drawn.length, awaited.length);
  return draw("svg", { width, height, viewBox: `0 0 ${width} ${height}`, role: "img", "aria-label": "Who waits for whom: the list below says the same" }, ...parts);
}

/** Who has a variable besides the goal that waits for it, as far as that was looked at. */
function others(holders, complete) {
  if (!holders.length) return complete ? "no other goal has" : "maybe other goals have";
  if (!complete) return `goals ${holders.join(", ")} and maybe others have`;
  return holders.length === 1 ? `goal ${holders[0]} has` : `goals ${holders.join(", ")} have`;
}

function line(goal, names) {
  const what = goal.awaits.map(({ variable, holders, complete }) => `${names(variable)}, which ${others(holders, complete)}`);
  return make("li", {}, make("code", {}, `${goal.number}: ${goal.text}`), ` in shoen ${goal.shoen} waits for ${what.join("; ") || "nothing that can come"}`);
}

/** Shows goals that wait; `more` says that there are others. */
export function showWaits(goals, more) {
  const names = (variable) => `_${variable}`;
  $("no-waits").hidden = goals.length > 0;
  fill($("waits-picture"), goals.length ? [picture(goals, names, $("waits-picture").clientWidth)] : []);
  const lines = goals.map((goal) => line(goal, names));
  if (more) lines.push(make("li", { class: "empty" }, "and others"));
  fill($("waits"), lines);
}
