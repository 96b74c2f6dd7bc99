// One account in a browser: who is logged in, and what is looked at again and again.

import * as api from "./api.js";
import { $, fill, make, tell } from "./dom.js";
import { startEditor } from "./editor.js";
import { forgetShoens, readReports, showShoens, startShoens } from "./shoens.js";
import { showWaits } from "./waits.js";

const EVERY = 1000;
const WHEN_HIDDEN = 10000;

let isIn = false;
let pages = 1;
let entries = 0;
let timer = null;
let looking = false;

function show(name) {
  isIn = name !== null;
  $("login-page").hidden = isIn;
  $("main").hidden = !isIn;
  $("logout").hidden = !isIn;
  $("state").hidden = !isIn;
  $("who").textContent = name ?? "";
  document.title = isIn ? `${name} · KL1` : "KL1";
  forgetShoens();
  if (isIn) look();
  else $("login").elements.name.focus();
}

/** What is in use, beside each limit but those on what was ever made, to which no account comes by the fifth rules. */
function showAccount(account) {
  const state = $("state");
  state.textContent = account.stopped ? `stopped: ${account.stopped}` : account.quiet ? "no goal can step" : "at work";
  state.className = `badge ${account.stopped ? "bad" : account.quiet ? "" : "running"}`;
  const rows = Object.entries(account.usage).map(([what, { count, most }]) => {
    const isNear = most <= Number.MAX_SAFE_INTEGER;
    const meter = isNear ? make("meter", { min: 0, max: most, high: most * 0.9, value: count, "aria-label": what }) : "";
    const beside = isNear ? ` of ${most.toLocaleString("en")}` : "";
    return make(
      "tr",
      {},
      make("th", { scope: "row" }, what),
      make("td", {}, meter),
      make("td", {}, `${count.toLocaleString("en")}${beside}`),
    );
  });
  const modules = account.modules.map((module) => `${module.name} (${module.clauses} clauses)`).join(", ");
  rows.push(make("tr", {}, make("th", { scope: "row" }, "modules"), make("td", { colspan: 2 }, modules || "none")));
  fill($("limits").tBodies[0], rows);
}

/** Pages of shoens up to the one that was asked for. */
async function readShoens() {
  let from = 1;
  const found = [];
  for (let page = 0; page < pages && from !== null; page++) {
    const { shoens, next } = await api.shoens(from);
    found.push(...shoens);
    from = next;
  }
  $("more-shoens").hidden = from === null;
  return found;
}

async function lookOnce() {
  const [account, shoens, waiting] = await Promise.all([api.account(), readShoens(), api.waiting()]);
  // Somebody else may have begun the account anew: what was shown of it is gone then.
  if (account.usage.entries.count < entries) forgetShoens();
  entries = account.usage.entries.count;
  showAccount(account);
  showShoens(shoens);
  showWaits(waiting.goals, waiting.next !== null);
  await readReports();
}

/** Looks now, and again after a while. */
async function look() {
  clearTimeout(timer);
  if (!isIn || looking) return;
  looking = true;
  try {
    await lookOnce();
  } catch (refused) {
    if (refused.status === 403) show(null);
    tell(refused.message, true);
  }
  looking = false;
  if (isIn) timer = setTimeout(look, document.hidden ? WHEN_HIDDEN : EVERY);
}

/** Has a form do something in place of being sent. */
function onSubmit(id, what) {
  $(id).addEventListener("submit", async (event) => {
    event.preventDefault();
    const form = event.target;
    const button = form.querySelector("button[type=submit]");
    button.disabled = true;
    try {
      await what(form.elements, form);
    } catch (refused) {
      tell(refused.message, true);
    }
    button.disabled = false;
    look();
  });
}

function note(sent, reply) {
  const list = $("console");
  list.append(make("li", { class: "sent" }, `> ${sent}`), ...reply.map((line) => make("li", {}, line)));
  while (list.children.length > 500) list.firstChild.remove();
  list.scrollTop = list.scrollHeight;
}

onSubmit("login", async (elements, form) => {
  const name = await api.login(elements.name.value, elements.key.value);
  form.reset();
  tell(null);
  show(name);
});

onSubmit("start", async ({ goal, allowance }) => {
  const line = `start ${allowance.value} 0 4095 ${goal.value}`;
  const reply = await api.command(line);
  note(line, reply);
  tell(reply[0].startsWith("-") ? `The goal is refused: ${reply[0].slice(2)}` : null, true);
});

onSubmit("reset", async (_, form) => {
  const [first] = await api.command("reset");
  if (first.startsWith("-")) return tell(`The reset is refused: ${first.slice(2)}`, true);
  form.reset();
  pages = 1;
  forgetShoens();
  tell("The account has begun anew.");
});

onSubmit("line", async ({ line }, form) => {
  const sent = line.value;
  note(sent, await api.command(sent));
  form.reset();
  line.focus();
});

$("logout").addEventListener("click", async () => {
  await api.logout().catch(() => {});
  show(null);
});
$("more-shoens").addEventListener("click", () => {
  pages += 1;
  look();
});
document.addEventListener("visibilitychange", () => document.hidden || look());

startShoens(look);
startEditor(look);
const enter = () => api.whoami().then(show, () => show(null));
api.whenChanged(enter);
enter();
