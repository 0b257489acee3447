// Elements, fields, and numbers, which stay text, since a browser's end at 53 bits.
export const by = (id) => document.getElementById(id);
export const GREATEST_COUNTER = (1n << 32n) - 1n, GREATEST_SEED = (1n << 64n) - 1n;
const SVG = "http://www.w3.org/2000/svg", GREATEST = (1n << 63n) - 1n;

// An element with a text, or with others in it.
export function made(kind, content = [], className = "") {
  const it = document.createElement(kind);
  it.append(...[content].flat());
  if (className) it.className = className;
  return it;
}

export function drawn(kind, attributes, content = []) {
  const it = document.createElementNS(SVG, kind);
  for (const [key, value] of Object.entries(attributes)) it.setAttribute(key, value);
  it.append(...[content].flat());
  return it;
}

export function labelled(control, label) {
  control.setAttribute("aria-label", label);
  return control;
}

export function button(text, action, className) {
  const it = made("button", text, className);
  it.type = "button";
  it.addEventListener("click", action);
  return it;
}

// A field for a text of some letters.
export function input(size, more = {}) {
  return Object.assign(made("input"), { size, ...more });
}

// A control with its label before it.
export function field(label, control) {
  return made("label", [`${label} `, control]);
}

export function options(select, texts, at) {
  const now = [...select.options].map((it) => it.textContent);
  if (now.join("\n") !== texts.join("\n")) select.replaceChildren(...texts.map((text) => made("option", text)));
  select.selectedIndex = at;
}

export function select(label, texts, at = 0, pick = () => {}) {
  const it = labelled(made("select"), label);
  options(it, texts, at);
  it.addEventListener("change", () => pick(it.selectedIndex));
  return it;
}

export function onSubmit(form, act) {
  form.addEventListener("submit", (event) => { event.preventDefault(); act(); });
  return form;
}

// Draws what an element contains, and leaves the focus where it was: on the control of the same number.
export function redrawn(element, ...parts) {
  const all = () => [...element.querySelectorAll("button, input, select")];
  const at = all().indexOf(document.activeElement);
  element.replaceChildren(...parts);
  const now = all();
  if (at >= 0 && now.length) now[Math.min(at, now.length - 1)].focus();
}

// The integers of a text as texts, or the first part of it that is none, or is out of range.
function numbersOf(text, least, greatest) {
  const parts = text.split(/[\s,]+/).filter(Boolean);
  const wrong = parts.find((it) => !/^-?\d+$/.test(it));
  if (wrong !== undefined) return { fault: `"${wrong}" is not an integer` };
  const far = parts.find((it) => BigInt(it) < least || BigInt(it) > greatest);
  if (far !== undefined) return { fault: `${far} is not between ${least} and ${greatest}` };
  return { numbers: parts.map((it) => BigInt(it).toString()) };
}

// The one integer of a text, as a text.
export function numberOf(text, greatest) {
  const { numbers, fault } = numbersOf(text, 0n, greatest);
  return numbers && numbers.length === 1 ? { number: numbers[0] } : { fault: fault || "one number is wanted" };
}

export function valuesOf(text) {
  return numbersOf(text, -GREATEST - 1n, GREATEST);
}

export function timeText(time) {
  return `(${time.join(",")})`;
}

// A time as it is typed: the epoch and the loop counters, which a browser's numbers hold.
export function timeOf(text) {
  const { numbers, fault } = numbersOf(text.replace(/[()]/g, " "), 0n, GREATEST_COUNTER);
  if (fault) return { fault };
  return numbers.length ? { time: numbers.map(Number) } : { fault: "a time is missing: its epoch, and its loop counters" };
}

export function plural(count, word) {
  return `${count} ${word}${count === 1 ? "" : "s"}`;
}
