// The tabs of the inspector; two positions compared; and steps found by what they are.
import { button, by, field, input, made, numberOf, onSubmit, plural, redrawn, select, timeOf } from "./base.js";
import { KINDS } from "./known.js";
import { columnHead, emptyRow } from "./panels.js";
import { about, processors, say, set, source, state, view } from "./store.js";

// ---- the tabs

const tabs = [...document.querySelectorAll("#tabs button")];

function showTab() {
  for (const it of tabs) {
    const isOn = it.dataset.tab === state.tab;
    it.setAttribute("aria-selected", isOn);
    it.tabIndex = isOn ? 0 : -1;
    by(it.dataset.tab).hidden = !isOn;
  }
}

for (const it of tabs) it.addEventListener("click", () => set({ tab: it.dataset.tab }));
by("tabs").addEventListener("keydown", (event) => {
  const way = { ArrowLeft: -1, ArrowRight: 1 }[event.key];
  if (!way) return;
  event.preventDefault();
  event.stopPropagation();
  const next = tabs[(tabs.indexOf(event.target) + way + tabs.length) % tabs.length];
  set({ tab: next.dataset.tab });
  next.focus();
});

// ---- two positions compared

export function compareWith(position) {
  set({ compared: { position, states: null }, tab: "compare" });
}

// Asks for the states that are compared, while they are shown.
async function askStates() {
  const { compared: { position }, picture: { at }, tab } = state;
  if (tab !== "compare" || position === null) return;
  const states = await source.states([at, position]);
  if (position === state.compared.position) set({ compared: { ...state.compared, at, states } });
}

// What differs between two states: its name, and what the one and the other have there.
function differences(one, other) {
  const rows = [], add = (name, a, b) => { if (a !== b) rows.push([name, a, b]); };
  const points = [one, other].map((it) => new Map(it.points.map((row) => [row.at, row])));
  for (const at of new Set([...points[0].keys(), ...points[1].keys()])) {
    const [a, b] = points.map((it) => it.get(at) || emptyRow(at));
    add(`truth at ${at}`, a.truth, b.truth);
    for (const kind of ["view", "unsent"]) a[kind].forEach((text, p) => add(`${kind} of processor ${p} at ${at}`, text || "0", b[kind][p] || "0"));
  }
  one.processors.forEach((it, p) => {
    for (const kind of Object.keys(it)) add(`processor ${p}, ${kind}`, it[kind].join("; "), other.processors[p][kind].join("; "));
  });
  const [queues, others] = [one, other].map((it) => new Map(it.queues.map(({ from, to, changes }) => [`${from} to ${to}`, changes.join("; ")])));
  for (const key of new Set([...queues.keys(), ...others.keys()])) add(`on the way from ${key}`, queues.get(key) || "", others.get(key) || "");
  return rows;
}

function differenceParts({ at, position, states }) {
  if (!states) return [];
  if (states.length < 2 || !states.every(Boolean)) return [made("p", "there is no state at one of the positions", "none")];
  const rows = differences(...states), positions = [at, position];
  if (!rows.length) return [made("p", `nothing differs between the positions ${positions.join(" and ")}`, "none")];
  const head = made("tr", [columnHead("what differs", "what differs"), ...positions.map((it) => columnHead(`at ${it}`, `at position ${it}`))]);
  return [made("div", made("table", [head, ...rows.map(([name, ...texts]) => (
    made("tr", [Object.assign(made("th", name), { scope: "row" }), ...texts.map((text) => made("td", text || "nothing", "long"))])))]), "wide")];
}

function showCompared() {
  const { compared, picture } = state, which = input(6, { value: compared.position === null ? "" : compared.position });
  const form = made("form", [field("compare this position with", which), made("button", "compare"), made("span", "or click a step with shift", "soft")], "form");
  onSubmit(form, () => {
    const { number, fault } = numberOf(which.value, BigInt(picture.kept));
    return fault ? say(`compare: ${fault}`, true) : compareWith(Number(number));
  });
  redrawn(by("compare"), made("h2", "Two positions compared"), form, ...differenceParts(compared));
}

// ---- steps found by what they are

const findControls = {
  kind: select("the kind of step", ["any step", ...KINDS.map((it) => (it === "notice" ? "notification" : it))]),
  p: select("its processor", ["any processor", ...processors()]),
  at: select("its location", ["anywhere", ...about.places.map((it) => it.name)]),
  time: input(6),
};

async function findSteps() {
  const { kind, p, at, time } = findControls, typed = time.value.trim() ? timeOf(time.value) : {};
  if (typed.fault) return say(`find: ${typed.fault}`, true);
  const found = await source.find({
    kind: KINDS[kind.selectedIndex - 1] || null, p: p.selectedIndex ? p.selectedIndex - 1 : null,
    at: at.selectedIndex ? about.places[at.selectedIndex - 1].name : null, time: typed.time || null,
  });
  return found && !found.stopped ? set({ found }) : undefined;
}

function showFound() {
  const { items, count } = state.found, more = count > items.length ? `, the first ${items.length} of them:` : "";
  const rows = items.map((it) => made("li", button(`${it.position}. ${it.words}`, () => source.goToStep(it.position), `kind-${it.kind}`)));
  by("found").replaceChildren(made("p", count ? `${plural(count, "step")}${more}` : "no such step", "soft"), made("ul", rows, "list"));
}

by("find").append(findControls.kind, findControls.p, findControls.at, field("at time", findControls.time), made("button", "find steps"));
onSubmit(by("find"), findSteps);
view(["tab"], showTab, false);
view(["compared"], showCompared);
view(["picture", "tab"], askStates);
view(["tab"], showCompared);
view(["found"], showFound);
showTab();
