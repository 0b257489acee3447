// The page of a live session: where its answers come from, its buttons, and what it hears of the session.
import { noteNothing, openAddress } from "./address.js";
import { asked, cancel, GONE, inTurn, progress, refresh } from "./asking.js";
import { button, by, labelled, numberOf, onSubmit } from "./base.js";
import { bringBack, execute, exportPage, jump, refreshed, run, save, step } from "./commands.js";
import { finishButton, finishPart } from "./finishing.js";
import "./forms.js";
import "./graph.js";
import { heldForms } from "./held.js";
import { listen } from "./keys.js";
import { about, processors, say, set, source, state, view } from "./store.js";
import { ZOOM_KEYS, ZOOMS } from "./time.js";

Object.assign(source, {
  isLive: true, execute, heldForms, finishButton, finishPart, goToStep: jump, look: () => inTurn(refresh),
  goToAddress: (at) => (at !== null && at !== state.picture.at && at <= state.picture.kept ? jump(at) : inTurn(refresh)),
  showFrom: (key, first) => refreshed({ [key]: first }),
  states: (positions) => inTurn(async () => {
    const states = [];
    for (const at of positions) states.push((await asked("state", { at })).state);
    return states;
  }),
  find: (wanted) => inTurn(() => asked("find", wanted)),
  why: (question) => inTurn(() => asked("why", question)),
  actions: {
    back: () => step("back"), redo: () => step("redo"), first: () => jump(0), last: () => jump(state.picture.kept),
    next: () => run(1), run: () => run(), save, export: exportPage, "bring-back": bringBack, cancel, ...ZOOMS,
  },
  keys: { ArrowLeft: "back", ArrowRight: "redo", Home: "first", End: "last", n: "next", r: "run", s: "save", ...ZOOM_KEYS },
});

function showCursor({ at, kept }) {
  by("cursor").textContent = `position ${at} of ${kept}`;
}

function showBar() {
  const { picture: { at, kept, dropped, rounds }, revision } = state;
  showCursor(state.picture);
  by("back").disabled = by("first").disabled = at === 0;
  by("redo").disabled = by("last").disabled = at === kept;
  by("bring-back").hidden = !dropped;
  by("rounds").hidden = !rounds;
  by("rounds").textContent = rounds;
  Object.assign(by("slider"), { max: kept, value: at });
  Object.assign(document.body.dataset, { position: at, kept, revision });
}

function showChoice() {
  by("seed").parentElement.hidden = by("choice").selectedIndex === 0;
}

// A button for each processor, by which it runs alone or with others that are chosen.
function onlyButton(name, p) {
  const press = () => set({ only: processors().map((_, q) => q).filter((q) => state.only.includes(q) !== (q === p)) });
  const it = labelled(button(`${p}`, press), `only ${name}`);
  it.title = `next step and run execute steps of ${name}; of all processors if none is chosen`;
  return it;
}

function showOnly() {
  by("only").querySelectorAll("button").forEach((it, p) => it.setAttribute("aria-pressed", state.only.includes(p)));
}

function sayGone(text) {
  by("gone").hidden = !text;
  by("gone").textContent = text;
}

function watchServer() {
  const beats = new EventSource("beats");
  beats.addEventListener("message", (event) => {
    const [newest, ended, working] = JSON.parse(event.data);
    sayGone((ended || "").replace(/^the program/, "the program is gone: it"));
    if (working && state.waiting && !state.isCancelled) progress(working);
    state.newest = newest;
    if (!state.picture || newest <= state.revision || state.waiting) return;
    noteNothing(); // what another tab does takes no place in this tab's history
    inTurn(refresh);
  });
  beats.addEventListener("error", () => sayGone(GONE));
}

onSubmit(by("goto"), () => {
  const { number, fault } = numberOf(by("position").value, BigInt(state.picture.kept));
  return fault ? say(`go to: ${fault}`, true) : jump(Number(number));
});
by("slider").addEventListener("input", () => showCursor({ ...state.picture, at: by("slider").value }));
by("slider").addEventListener("change", () => jump(Number(by("slider").value)));
by("choice").addEventListener("change", showChoice);
if (about.processors > 1) by("only").append("only processor", ...processors().map(onlyButton));
view(["picture"], showBar);
view(["cursor"], () => showCursor(state.cursor));
view(["only"], showOnly, false);
showChoice();
showOnly();
listen();
watchServer();
inTurn(refresh).then(openAddress);
