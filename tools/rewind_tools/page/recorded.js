// The page of a recorded run: what it shows is in the page itself, in pieces of some positions.
import { addressOf, openAddress } from "./address.js";
import { by, made, numberOf, onSubmit, timeText } from "./base.js";
import { showHolding } from "./graph.js";
import { listen } from "./keys.js";
import { BINS, compareTimes, MOST_LISTED, overQuestion, windowOf } from "./known.js";
import { about, derived, processors, question, say, set, source, state, view } from "./store.js";
import { ZOOM_KEYS, ZOOMS } from "./time.js";
import { askFirst } from "./why.js";

const recording = JSON.parse(by("recorded").textContent), lastOne = recording.ats.length - 1, opened = new Map();
// What is known of all kept steps; the position that was asked for last, since keys may follow one another quickly; and
// when it is shown.
let log = null, wanted = about.opens, shown = null;

async function unpacked(text) {
  const bytes = Uint8Array.from(atob(text), (it) => it.charCodeAt(0));
  return new Response(new Blob([bytes]).stream().pipeThrough(new DecompressionStream("deflate"))).json();
}

// ---- what is known of all kept steps. An entry [cuts, position, value] counts until a cut before its position.

function entriesOf(kind, key) {
  const { cuts: here, kept } = state.picture, to = (cuts) => Math.min(kept, ...log.cuts.slice(cuts, here));
  const all = (log[kind][key] || []).filter(([cuts, at]) => cuts <= here && at <= to(cuts));
  return all.map(([, at, value]) => [at, value]).sort(([one], [other]) => one - other);
}

// The last value at or before a position.
function valueAt(entries, at) {
  return entries.filter(([it]) => it <= at).map(([, value]) => value).pop();
}

// The steps up to the last kept one: at each position its step, or nothing if the page leaves it out.
function allSteps() {
  const steps = [];
  for (const [at, it] of entriesOf("steps", "")) steps[at] = { position: at, ...it };
  return steps;
}

// The updates from each broadcast to its receives: as live/sight.py has them.
function messagesAmong(steps, first, last) {
  const waiting = processors().map(() => processors().map(() => [])), found = [];
  for (const it of steps) {
    if (it && it.kind === "broadcast") for (const queue of waiting[it.p]) queue.push(it.position);
    if (it && it.kind === "receive") found.push([it.from, it.p, waiting[it.from][it.p].shift(), it.position]);
  }
  waiting.forEach((row, p) => row.forEach((left, q) => found.push(...left.map((at) => [p, q, at, null]))));
  const inSight = (at) => (at !== null && at >= first && at <= last ? at : null);
  return found.map(([p, q, begin, end]) => [p, q, inSight(begin), inSight(end)])
    .filter(([p, q, begin, end]) => p !== q && (begin !== null || end !== null));
}

function stepsInSight() {
  const [first, last] = windowOf(state.picture.at, state.picture.kept, state.sight), steps = allSteps();
  const items = last - first < MOST_LISTED ? steps.slice(first, last + 1).filter(Boolean) : [];
  return { first, last, items, messages: items.length ? messagesAmong(steps, first, last) : [] };
}

function densityAmong(steps, first, last) {
  const count = Math.max(1, last - first + 1), bins = Math.min(BINS, count);
  const rows = processors().map(() => new Array(bins).fill(0));
  for (const it of steps.slice(first, last + 1)) if (it) rows[it.p][Math.min(bins - 1, Math.floor(((it.position - first) * bins) / count))] += 1;
  return rows;
}

function isAtOrBefore(one, other) {
  if (about.order === "product") return one.every((it, at) => it <= other[at]);
  return one[0] <= other[0] && compareTimes(one.slice(1), other.slice(1)) <= 0;
}

// Which points have to be passed, so that the point that is asked about is: each a place, and whether a time is in its way.
function inTheWay({ at, time, before }) {
  const isThere = (it) => isAtOrBefore(it, time);
  if (!before) return [[at, isThere]];
  const edges = about.places.filter((it) => it.to === at).map((it) => [it.name, isThere]);
  return [...edges, [at, (it) => isThere(it) && compareTimes(it, time) !== 0]];
}

// Where a value turns among the positions, as the live page is told.
function laneOf(values) {
  const turns = values.slice(1).filter(([, holds], at) => holds !== values[at][1]).map(([at]) => at);
  return values.length ? { at_lo: values[0][1], turns, to: state.picture.kept } : { at_lo: null, turns: [], to: 0 };
}

function positionsOf(lists) {
  return [...new Set(lists.flatMap((entries) => entries.map(([at]) => at)))].sort((a, b) => a - b);
}

// A view has passed a point exactly if no time that can still arrive there is at or before it.
function knowing(q, why) {
  const places = inTheWay(why).map(([place, isThere]) => [entriesOf("times", `${q} ${place}`), isThere]);
  const hasPassed = (at) => !places.some(([entries, isThere]) => (valueAt(entries, at) || []).some(isThere));
  return laneOf(positionsOf(places.map(([entries]) => entries)).map((at) => [at, hasPassed(at)]));
}

// What is finished stays finished; of what no answer is recorded is not known.
function finishedLane({ at, time, before }) {
  const entries = entriesOf("finished", `${at} ${timeText(time)}${before ? " before" : ""}`), since = entries.find(([, it]) => it);
  return laneOf(since && since[0] > 0 ? [[0, false], [since[0], true]] : entries.slice(0, 1));
}

function overAll() {
  const { why, window: [first, last], origin } = overQuestion(), { kept } = state.picture, steps = allSteps();
  const all = [...processors().keys()], times = why ? all.map((q) => entriesOf("times", `${q} ${why.at}`)) : [];
  return {
    about: JSON.stringify(why), said: "", density: densityAmong(steps, 1, kept), whole: true,
    near: last - first >= MOST_LISTED ? densityAmong(steps, first, last) : null,
    lanes: why ? [...all.map((q) => knowing(q, why)), finishedLane(why)] : [],
    carried: Object.fromEntries(entriesOf("carried", "")),
    origin: origin ? entriesOf("views", `${origin.q} ${origin.at} ${timeText(origin.time)}`) : null,
    times: positionsOf([...times, [[kept]]]).map((at) => [at, times.map((it) => valueAt(it, at) || [])]),
  };
}

// ---- positions

// The members of a position: packing.py has the other direction.
async function positionOf(at) {
  if (at < 0) return {};
  const number = Math.floor(at / recording.size), here = at % recording.size, all = {};
  if (!opened.has(number)) opened.set(number, unpacked(recording.pieces[number]));
  for (const [path, values] of Object.entries(await opened.get(number))) {
    const last = values.filter(([from]) => from <= here).pop();
    if (!last || (last[1] === null && path.startsWith("why/"))) continue;
    const depth = path.startsWith("picture/state/") ? 3 : path.startsWith("picture/") || path.startsWith("why/") ? 2 : 1;
    const names = path.split("/"), name = names.slice(depth - 1).join("/");
    let of = all;
    for (const it of names.slice(0, depth - 1)) of = of[it] = of[it] || {};
    if (last[1] !== null || !of[name]) of[name] = last[1];
  }
  return all;
}

// The line and its reply stand at the line's last position; the steps of a run have neither.
function showLine() {
  const { told, position } = state;
  const client = told.client === null ? "" : `client ${told.client}: `, line = told.line === null ? "" : `line ${told.line}, `;
  const step = told.step ? `step ${told.step} of ${told.ran} of this run: ` : "";
  by("asked").textContent = client + step + told.asked;
  by("answer").className = told.refused ? "refused" : "";
  by("answer").replaceChildren(...told.answer.map((text) => made("li", text)));
  by("line").textContent = told.text || "";
  by("reply").textContent = told.reply || "";
  by("cursor").textContent = `${line}${position + 1} of ${lastOne + 1}`;
  by("slider").value = position;
  by("back").disabled = by("first").disabled = position === 0;
  by("redo").disabled = by("last").disabled = position === lastOne;
}

// What the panel says where the page has no answer about a point.
function withoutAnswer({ q, at }) {
  const { told } = state;
  const here = Object.keys(told.why || {}).filter((it) => it.startsWith(`${q} ${at} (`));
  if (here.length) return `no answer is recorded about this time of ${at}, but about ${here.map((it) => it.split(" ")[2]).join(", ")}`;
  const which = { all: "nothing stands there at this position", fewer: "the page has answers here about times that a vertex waits for or a line asks about", none: "the page has no answers at this position" };
  return `${which[told.which]}; tools/live answers everywhere`;
}

function whyAnswer(asked) {
  const { q, at, before } = asked, all = state.told.why || {}, time = asked.time || arrivingAt(q, at);
  const key = time ? `${q} ${at} ${timeText(time)}${before ? " before" : ""}` : Object.keys(all).find((it) => it.startsWith(`${q} ${at} (`));
  return { time, ...(all[key] || { error: withoutAnswer(asked) }) };
}

// The earliest time that can still arrive, or the first that could.
function arrivingAt(q, place) {
  const entries = entriesOf("times", `${q} ${place}`), now = valueAt(entries, state.picture.at);
  const [, first] = entries.find(([, times]) => times.length) || [0, []];
  return (now && now.length ? now : first)[0] || null;
}

async function show(at) {
  const [told, old] = [await positionOf(at), await positionOf(at - 1)], picture = told.picture || null;
  Object.assign(state, { told, picture });
  document.querySelector("main").classList.toggle("empty", !picture);
  const why = picture && question() && whyAnswer(question()), before = (picture && old.picture) || null;
  set({ told, position: at, picture, before, why, candidates: picture && picture.candidates });
  if (!picture) showHolding(Number.isInteger(told.mark) ? [{ place: told.mark }] : []);
  else if (!question()) await askFirst();
  document.body.dataset.position = at;
}

// Goes to a position, which is shown anew if it has to be; answers when it is shown.
function goTo(at, isAnew = false) {
  wanted = Math.max(0, Math.min(lastOne, at));
  shown = shown.then(() => (wanted === state.position && state.told.asked !== undefined && !isAnew ? undefined : show(wanted)));
  return shown;
}

// The last position of the line before, and of this line or, from there, of the next one.
function lineBack() {
  let at = wanted - 1;
  while (at > 0 && recording.ends[at] !== at) at -= 1;
  return at;
}

function lineOn() {
  return recording.ends[Math.min(wanted + 1, lastOne)];
}

// The position of the page nearest to this one with the cursor at a step, -1 if there is none.
function nearest(step) {
  const there = recording.ats.flatMap((at, index) => (at === step ? [index] : []));
  there.sort((one, other) => Math.abs(one - state.position) - Math.abs(other - state.position));
  return there.length ? there[0] : -1;
}

Object.assign(source, {
  isLive: false,
  goToStep: (step) => { if (nearest(step) >= 0) goTo(nearest(step)); },
  look() {},
  goToAddress: (at) => goTo(at === null ? state.position : at, true),
  async states(positions) {
    const all = await Promise.all(positions.map((it) => positionOf(nearest(it))));
    return all.map((it) => it.picture && it.picture.state);
  },
  async find({ kind, p, at, time }) {
    const text = time && timeText(time), all = allSteps().filter((it) => (kind === null || it.kind === kind)
      && (p === null || it.p === p) && (at === null || it.at === at) && (time === null || it.time === text));
    return { items: all.slice(0, 200), count: all.length };
  },
  async why(asked) { return state.picture && whyAnswer(asked); },
  actions: {
    back: () => goTo(wanted - 1), redo: () => goTo(wanted + 1), first: () => goTo(0), last: () => goTo(lastOne),
    lineBack: () => goTo(lineBack()), lineOn: () => goTo(lineOn()), ...ZOOMS,
  },
  keys: { ...ZOOM_KEYS, ArrowLeft: "back", ArrowRight: "redo", Home: "first", End: "last", PageUp: "lineBack", PageDown: "lineOn" },
});

onSubmit(by("goto"), () => {
  const { number, fault } = numberOf(by("position").value, BigInt(lastOne + 1));
  return fault ? say(`go to: ${fault}`, true) : goTo(Number(number) - 1);
});
derived(["picture", "why", "sight"], () => {
  state.steps = stepsInSight();
  state.sight.first = state.steps.first;
  state.over = overAll();
});
view(["told"], showLine, false);
by("slider").addEventListener("input", () => goTo(Number(by("slider").value)));
listen();
shown = unpacked(recording.over).then((it) => { log = it; });
(addressOf(location.hash).at === null ? goTo(wanted) : shown).then(openAddress);
