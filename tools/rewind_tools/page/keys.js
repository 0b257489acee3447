// The buttons and keys of a page, live or recorded; what it says; and its parts for the browser's console and for tests.
import { by } from "./base.js";
import { set, source, state, view } from "./store.js";

export function listen() {
  for (const [id, action] of Object.entries(source.actions)) if (by(id)) by(id).addEventListener("click", () => action());
  document.addEventListener("keydown", (event) => {
    const name = source.keys[event.key], isTyping = ["INPUT", "SELECT"].includes(event.target.tagName) || by("warning").open;
    if (!name || isTyping || event.altKey || event.ctrlKey || event.metaKey) return;
    event.preventDefault();
    if (!by(name) || !by(name).disabled) source.actions[name]();
  });
  for (const form of document.querySelectorAll("form")) form.addEventListener("submit", (event) => event.preventDefault());
}

view(["said"], () => Object.assign(by("said"), { textContent: state.said.text, className: state.said.isRefused ? "refused" : "" }), false);
globalThis.rewind = { set, source, state };
