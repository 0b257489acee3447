// Which point is asked about, and why it is not finished. Of many places one is also found by a part of its name.
import { by, field, input, labelled, made, redrawn, select, timeOf, timeText } from "./base.js";
import { about, placeNumber, processors, question, say, set, source, state, view } from "./store.js";

// From how many places on one is also found by its name, and how many names are offered.
const MANY_PLACES = 64, MOST_OFFERED = 50;

// Asks about the point that is chosen.
export async function askWhy() {
  const asked = question(), why = await source.why(asked), { chosen } = state;
  if (why && question() && question().at === asked.at) set({ why, chosen: { ...chosen, time: why.time || chosen.time } });
}

// Chooses a point, or another processor, time or form of the question.
export function choose(changes) {
  set({ chosen: { ...state.chosen, ...changes } });
  return state.chosen.place === null ? undefined : askWhy();
}

export function choosePlace(place) {
  return choose({ place, time: null, before: false });
}

// Asks about what a step waits for, or says why it is refused.
export function explain(it) {
  if (!it.ask) return say(it.refused, true);
  return choose({ q: it.ask.q, place: placeNumber(it.ask.at), time: it.ask.time, before: Boolean(it.ask.before) });
}

// What seems to be asked, if nobody has asked: about a notification that waits, else about a sink or the last vertex.
export function askFirst() {
  const { candidates, chosen, picture } = state;
  if (chosen.place !== null || !picture) return undefined;
  const waits = candidates && candidates.items.find((it) => it.ask && it.kind === "notice");
  if (waits) return explain(waits);
  const vertices = about.places.filter((it) => it.op !== "edge"), sink = vertices.findIndex((it) => it.op === "sink");
  return vertices.length ? choosePlace(sink >= 0 ? sink : vertices.length - 1) : undefined;
}

// The point that is asked about, in words.
export function pointText(all = "all that is strictly before") {
  const { at, time, before } = question(), point = `${at} ${time ? timeText(time) : ""}`.trim();
  return before ? `${all} ${point}` : point;
}

const controls = {
  q: select("the processor that is asked", processors(), 0, (q) => choose({ q })),
  at: select("the vertex or edge", about.places.map((it) => it.name), 0, choosePlace),
  time: input(8),
  before: Object.assign(made("input"), { type: "checkbox" }),
};
controls.time.addEventListener("change", () => {
  const { time, fault } = timeOf(controls.time.value);
  return fault ? say(`why: ${fault}`, true) : choose({ time });
});
controls.before.addEventListener("change", () => choose({ before: controls.before.checked }));
by("why-form").append(controls.q, field("at", controls.at), field("time", controls.time), field("strictly before it", controls.before));

// The places whose name has what is typed, the first of them.
const offered = made("datalist");
offered.id = "found-places";
const searched = labelled(input(16, { placeholder: "a part of its name" }), "find a vertex or an edge by its name");
searched.setAttribute("list", offered.id);
searched.addEventListener("input", () => {
  const text = searched.value.toLowerCase(), its = about.places.filter((it) => it.name.toLowerCase().includes(text));
  offered.replaceChildren(...its.slice(0, MOST_OFFERED).map((it) => Object.assign(made("option"), { value: it.name })));
});
searched.addEventListener("change", () => {
  const exact = about.places.findIndex((it) => it.name === searched.value), text = searched.value.toLowerCase();
  const place = exact >= 0 ? exact : about.places.findIndex((it) => it.name.toLowerCase().includes(text));
  if (place < 0) return say(`no vertex or edge has "${searched.value}" in its name`, true);
  searched.value = "";
  return choosePlace(place);
});
if (about.places.length > MANY_PLACES) by("why-form").append(field("find", searched), offered);

function showForm() {
  const { q, place, time, before } = state.chosen;
  by("why-form").hidden = place === null;
  controls.q.selectedIndex = q;
  controls.at.selectedIndex = place === null ? -1 : place;
  if (document.activeElement !== controls.time || time) controls.time.value = time ? time.join(",") : "";
  controls.before.checked = before;
}

// A reason, with the news under way, which goes with the next steps.
function reasonRow(it) {
  return made("li", [it.words, ...(it.news ? [made("span", `; ${it.news}`, "none")] : [])]);
}

function answerParts(told) {
  const { q, at } = question(), there = pointText();
  const verdict = `processor ${q} ${told.passed ? "knows" : "does not know"} that ${there} is finished${told.passed ? "" : ":"}`;
  const rows = told.reasons.map(reasonRow);
  if (told.more) rows.push(made("li", `and ${told.more} more`, "none"));
  if (!told.passed) rows.push(made("li", `in truth ${there} is ${told.finished ? "" : "not "}finished`, "none"));
  const arrive = told.times ? `can still arrive at ${at}, as far as processor ${q} knows: ${told.times} and later` : `processor ${q} knows that nothing can arrive at ${at} any more`;
  const rest = told.rest ? [made("p", told.rest, "rest")] : [], finish = source.finishPart ? source.finishPart(told) : [];
  return [...rest, ...finish, made("p", verdict, rest.length ? "none" : ""), made("ul", rows), made("p", arrive, "none")];
}

view(["why", "finishing"], () => {
  const { why } = state, how = "click a vertex or an edge, a number of a view, or a step that waits";
  const told = why && (why.error ? [made("p", why.error, "refused")] : answerParts(why));
  redrawn(by("why"), ...(told || [made("p", how, "none")]));
});
view(["chosen"], showForm);
