// Small helps with elements. Text is only ever set as text, so that nothing of an account becomes markup.

export const $ = (id) => document.getElementById(id);

/** An element with attributes, properties whose names are functions' (onclick ..), and children. */
export function make(tag, attributes = {}, ...children) {
  const element = document.createElement(tag);
  for (const [name, value] of Object.entries(attributes)) {
    if (typeof value === "function") element[name] = value;
    else if (value !== null && value !== undefined && value !== false) element.setAttribute(name, value === true ? "" : value);
  }
  element.append(...children.filter((child) => child !== null && child !== undefined));
  return element;
}

/** An element of a picture. */
export function draw(tag, attributes = {}, ...children) {
  const element = document.createElementNS("http://www.w3.org/2000/svg", tag);
  for (const [name, value] of Object.entries(attributes)) element.setAttribute(name, value);
  element.append(...children);
  return element;
}

/** Puts children in place of those that an element has, unless a control in it is being used. */
export function fill(element, children) {
  if (element.contains(document.activeElement) && document.activeElement.matches("input, textarea")) return false;
  const focused = element.contains(document.activeElement) ? document.activeElement.dataset.key : null;
  element.replaceChildren(...children);
  if (focused) element.querySelector(`[data-key="${CSS.escape(focused)}"]`)?.focus();
  return true;
}

/** Tells something at the head of the page; nothing with no words. */
export function tell(words, isBad = false) {
  const notice = $("notice");
  notice.textContent = words ?? "";
  notice.hidden = !words;
  notice.classList.toggle("bad", isBad);
}
