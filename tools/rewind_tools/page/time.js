// Who knows what, from where on: a lane for each processor along the steps, and one for the truth. Above it the
// overview of the whole run, and the times that can still arrive, as each processor knows them.
import { by, drawn, made, timeText } from "./base.js";
import { compareWith } from "./compare.js";
import { bandsOf, earliestTimes, grouped, isAnswered, KINDS, laneNames, processorsText, turnsOf } from "./known.js";
import { about, processors, set, source, state, view } from "./store.js";
import { choose, pointText } from "./why.js";

const FEWEST = 8, LEFT = 92, RIGHT = 12, LETTER = 6.4, STAIRS = 46;
// How wide the plots are, which is measured once for each time that they are drawn.
let plot = 200;

// Where the step that leads to a position stands among those in sight, and in the overview.
function stepWidth() {
  return plot / Math.max(1, state.steps.last - state.steps.first + 1);
}

function x(position) {
  return LEFT + (position - state.steps.first + 0.5) * stepWidth();
}

function xOfAll(position) {
  return LEFT + (position / Math.max(1, state.picture.kept)) * plot;
}

function laneHeight() {
  return [[2, 44], [4, 34], [8, 24], [16, 15], [64, 11]].find(([most]) => about.processors <= most)[1];
}

function y(lane) {
  return 4 + laneHeight() * (lane + 0.5);
}

function isInSight(position) {
  return position >= state.steps.first && position <= state.steps.last;
}

function title(text) {
  return drawn("title", {}, text);
}

function cursorLine(at, tall) {
  return drawn("line", { class: "now", x1: at, x2: at, y1: 0, y2: tall });
}

function bandParts(lane, top, high, place, first, last) {
  const kind = laneNames()[lane] === "condition" ? "holding" : "knowing", bands = bandsOf(lane);
  return bands.flatMap(({ from, to, holds }, index) => {
    const begin = Math.max(first, place(from)), end = Math.min(last, to === state.picture.kept ? last : place(to));
    if (end <= begin) return [];
    const name = holds === null ? "unknown" : `${kind}-${holds}`, isTurn = index && bands[index - 1].holds === !holds;
    const band = drawn("rect", { class: `band ${name}`, x: begin, y: top, width: end - begin, height: high });
    if (!isTurn || holds === null || place(from) < first) return [band];
    return [band, drawn("line", { class: `edge-${holds}`, x1: begin, x2: begin, y1: top, y2: top + high })];
  });
}

// Of many steps only how many there are, as columns on the lanes.
function densityParts(density, bottom, high) {
  const most = Math.max(1, ...density.flat());
  return density.map((row, p) => {
    const wide = plot / row.length, column = (count, at) => `M${LEFT + at * wide},${bottom(p)}v${(-high * count) / most}h${wide}v${(high * count) / most}z`;
    return drawn("path", { class: "density", d: row.map((count, at) => (count ? column(count, at) : "")).join("") });
  });
}

// ---- the overview

function showStrip() {
  const { picture: { at, kept, marks }, steps: { first, last }, over } = state, names = laneNames(), end = LEFT + plot;
  const high = names.length > 18 ? 2 : names.length > 9 ? 4 : names.length > 5 ? 6 : 9, tall = names.length * high + 4, begin = xOfAll(first - 1);
  by("strip").replaceChildren(drawn("svg", { width: end + RIGHT, height: tall, role: "img", "aria-label": `all ${kept} steps` }, [
    drawn("text", { class: "lane-name", x: 2, y: tall / 2 + 4 }, "all steps"),
    ...names.flatMap((_, lane) => bandParts(lane, 2 + lane * high, high - 1, xOfAll, LEFT, end)),
    ...densityParts(over.density, (p) => 1 + (p + 1) * high, high - 1),
    ...marks.map((it) => drawn("rect", { class: "refused-mark", x: xOfAll(it.at), y: 2 + it.p * high, width: 2, height: high - 1 })),
    drawn("rect", { class: "brush", x: begin, y: 0.5, width: Math.max(3, xOfAll(last) - begin), height: tall - 1 }),
    cursorLine(xOfAll(at), tall),
  ]));
}

// A drag over the overview shows the steps there, a click those around it.
function brushed(begun, ended) {
  const positionAt = (clientX) => {
    const share = (clientX - by("strip").getBoundingClientRect().left - LEFT) / plot;
    return Math.round(Math.max(0, Math.min(1, share)) * state.picture.kept);
  };
  const [one, other] = [positionAt(begun), positionAt(ended)].sort((a, b) => a - b), { count } = state.sight;
  if (Math.abs(begun - ended) > 4) look(Math.max(FEWEST, other - one), one + 1);
  else look(count, one - Math.floor(count / 2));
}

// Shows so many steps, from one on.
function look(count, first) {
  const { at, kept } = state.picture, most = Math.max(FEWEST, kept);
  set({ sight: { ...state.sight, count: Math.max(FEWEST, Math.min(most, Math.round(count))), first: Math.max(1, Math.round(first)), of: at } });
  return source.look();
}

// Shows fewer or more steps: those around the cursor, if it is in sight, else around the middle.
function zoomSteps(factor) {
  const { first, last } = state.steps, { at } = state.picture, count = Math.max(FEWEST, (last - first + 1) * factor);
  const isIn = at >= first - 1 && at <= last, share = isIn ? (at - first + 1) / (last - first + 1) : 0.5;
  return look(count, (isIn ? at : (first + last) / 2) - count * share);
}

// ---- the frontiers: which times can still arrive, as each processor knows; those that know the same are one line

function stairPath(samples, q, level) {
  const points = samples.map(([at, times]) => [xOfAll(at), level(times[q])]), [, last] = samples[samples.length - 1];
  return {
    d: `${points.map(([at, high], index) => (index ? `H${at}V${high}` : `M${at},${high}`)).join("")}H${LEFT + plot}`,
    said: last[q].length ? `${timeText(last[q][0])} can still arrive at the end` : "nothing can arrive any more at the end",
  };
}

function showStairs() {
  const { chosen, over, picture } = state, samples = chosen.place !== null && isAnswered() ? over.times : [];
  if (samples.length < 2) return by("stairs").replaceChildren();
  const { name } = about.places[chosen.place], order = earliestTimes(samples), rank = new Map(order.map((it, at) => [timeText(it), at]));
  const hasEnd = samples.some(([, times]) => times.some((it) => !it.length)), most = Math.max(1, order.length - (hasEnd ? 0 : 1));
  const level = (times) => STAIRS - 4 - ((times.length ? rank.get(timeText(times[0])) : most) / most) * (STAIRS - 10);
  const top = hasEnd ? "none" : order.length > 1 ? timeText(order[order.length - 1]) : "";
  const same = grouped([...processors().keys()], (q) => JSON.stringify(samples.map(([, times]) => times[q])));
  const label = `the earliest time that can still arrive at ${name}, as each processor knows`;
  return by("stairs").replaceChildren(drawn("svg", { width: LEFT + plot + RIGHT, height: STAIRS, role: "img", "aria-label": label }, [
    drawn("text", { class: "lane-name", x: 2, y: 11 }, "arrives at"),
    drawn("text", { class: "lane-name", x: 2, y: 24 }, name.length > 11 ? `${name.slice(0, 10)}\u2026` : name),
    drawn("text", { class: "scale", x: LEFT - 4, y: STAIRS - 2 }, order.length ? timeText(order[0]) : ""),
    drawn("text", { class: "scale", x: LEFT - 4, y: 12 }, top),
    ...same.map((all) => {
      const { d, said } = stairPath(samples, all[0], level), stroke = `hsl(${(all[0] * 137 + 210) % 360} 70% 48%)`;
      return drawn("path", { class: "stair", d, stroke }, title(`${processorsText(all)}: ${said}`));
    }),
    cursorLine(xOfAll(picture.at), STAIRS),
  ]));
}

// ---- the steps in sight

// The mark of a step: each kind has a form of its own beside its colour.
function markOf(kind, at, lane, more) {
  const points = {
    broadcast: [[-6, 5.5], [0, -7], [6, 5.5]],
    receive: [[-6, -5.5], [0, 7], [6, -5.5]],
    notice: [[0, -7.5], [7.5, 0], [0, 7.5], [-7.5, 0]],
    feed: [[-5.8, -5.8], [5.8, -5.8], [5.8, 5.8], [-5.8, 5.8]],
    send: [[-5.5, -6.5], [7, 0], [-5.5, 6.5]],
  }[kind];
  const scale = laneHeight() < 20 ? 0.75 : 1, attributes = { class: `step ${kind}`, ...more };
  if (!points) return drawn("circle", { cx: at, cy: lane, r: 6.5 * scale, ...attributes });
  return drawn("polygon", { points: points.map(([dx, dy]) => `${at + dx * scale},${lane + dy * scale}`).join(" "), ...attributes });
}

// What the step that leads to a position carries to other processors.
function carriedAt(position) {
  const { updates = [], records = [] } = state.over.carried[position] || {};
  return { updates, records };
}

function stepMark({ kind, p, position, words }) {
  const { at } = state.picture, said = [`${position}. ${words}`, ...carriedAt(position).updates].join("\n");
  const it = markOf(kind, x(position), y(p), {
    class: `step ${kind}${position > at ? " ahead" : ""}`, "data-position": position,
    role: "button", tabindex: position === at ? 0 : -1, "aria-label": `step ${position}: ${words}`,
  });
  it.append(title(said));
  it.addEventListener("click", (event) => (event.shiftKey ? compareWith : source.goToStep)(position));
  return it;
}

// The labels for which there is room before the next mark on the lane.
function labelsOf(items) {
  const marks = [...items, ...state.picture.marks.map(({ p, at }) => ({ p, position: at + 0.5 }))];
  return items.filter(({ p, position, label }) => {
    const next = Math.min(...marks.filter((it) => it.p === p && it.position > position).map((it) => x(it.position)), LEFT + plot + RIGHT);
    return label && label.length * LETTER < next - x(position) - 18;
  }).map((it) => drawn("text", { class: "label", x: x(it.position) + 9, y: y(it.p) + 4 }, it.label));
}

// An arrow from a step to another, or, if that is not in sight, a short one towards its lane.
function arrow(kind, [from, lane], [to, end], words, text) {
  const step = Math.min(14, stepWidth()), up = Math.sign(end - lane) * laneHeight() * 0.6;
  const [x2, y2] = to === null ? [from + step, y(lane) + up] : [to, y(end)], ends = { x1: from, y1: y(lane), x2, y2 };
  const beside = { x: from + (x2 - from) * 0.45 + 5, y: y(lane) + (y2 - y(lane)) * 0.45 + (end > lane ? -2 : 9) };
  return drawn("g", { class: `arrow ${kind}${to === null ? " way" : ""}` }, [
    ...(kind === "update" && to !== null ? [drawn("line", { class: "hit", ...ends })] : []),
    drawn("line", ends), title(words), ...(text && Math.abs(x2 - from) > 60 ? [drawn("text", beside, text)] : []),
  ]);
}

// An update from its broadcast to its receive, with what it brings.
function updateArrow([sender, receiver, begin, end]) {
  const { updates } = carriedAt(begin), from = begin === null ? x(state.steps.first) - stepWidth() / 2 : x(begin);
  const words = `processor ${sender} to processor ${receiver}, ${end === null ? "on its way" : `received at ${end}`}`;
  const text = laneHeight() > 30 && updates.length ? `${updates[0]}${updates.length > 1 ? ` +${updates.length - 1}` : ""}` : "";
  return arrow("update", [from, sender], [end === null ? null : x(end), receiver], updates.length ? [`${words}:`, ...updates].join("\n") : words, text);
}

// Takes away the texts of arrows for which there is no room beside those before, or before the right edge.
function thinned(arrows) {
  const taken = [];
  for (const text of arrows.map((it) => it.querySelector("text")).filter(Boolean)) {
    const left = Number(text.getAttribute("x")), top = Number(text.getAttribute("y")), right = left + text.textContent.length * LETTER;
    if (right > LEFT + plot + RIGHT || taken.some((it) => left < it.right && it.left < right && Math.abs(it.top - top) < 12)) text.remove();
    else taken.push({ left, right, top });
  }
  return arrows;
}

// The records that steps send to other processors, each to the step that takes it.
function recordArrows(items) {
  const used = new Set();
  return items.flatMap((it) => carriedAt(it.position).records.flatMap(([q, key, count]) => Array.from({ length: Math.min(count, 5) }, () => {
    const end = items.find((other) => other.position > it.position && other.p === q && other.takes === key && !used.has(other));
    used.add(end);
    return arrow("record", [x(it.position), it.p], [end ? x(end.position) : null, q], `record ${key}, from processor ${it.p} to processor ${q}`);
  })));
}

// What was refused after a step, on its worker's lane.
function refusedMark({ at, p, words }) {
  const left = Math.max(LEFT - 4, x(at) + stepWidth() / 2);
  return drawn("g", { class: "refused-mark" }, [drawn("path", { d: `M${left - 5},${y(p) - 5} l10,10 m0,-10 l-10,10` }), title(words)]);
}

// The step from which on the processor that is asked counts what is in the way, and the one that ends that.
function ringsOf() {
  const { chosen: { q, place }, over, picture: { at } } = state;
  if (place === null || !isAnswered()) return [];
  const turns = turnsOf(q), ends = turns.find((it) => it > at) || turns.reverse().find((it) => it <= at);
  const [came] = (over.origin || []).filter(([it]) => it <= at).pop() || [];
  const rings = [["from", came, "from this step on it counts what is in the way"], ["ends", ends, "by this step it knows that the point is finished"]];
  return rings.filter((it) => isInSight(it[1])).map(([name, position, words]) => (
    drawn("circle", { class: `ring ${name}`, cx: x(position), cy: y(q), r: laneHeight() < 20 ? 7 : 10 }, title(`processor ${q}: ${words}`))));
}

// How far each lane's edge is behind the truth's: a line from that on through all lanes.
function truthLine() {
  const [turn] = state.chosen.place === null ? [] : turnsOf(about.processors);
  if (!isInSight(turn)) return [];
  return [drawn("line", { class: "truth-line", x1: x(turn), x2: x(turn), y1: 4, y2: y(about.processors) })];
}

function laneParts(name, lane, right) {
  const { q, place } = state.chosen, isAsked = place !== null, isOwn = lane < about.processors, rim = laneHeight() < 20 ? 2 : 4;
  const text = drawn("text", { class: `lane-name${isAsked && lane === q ? " chosen" : ""}`, x: 2, y: y(lane) + 4 }, name);
  if (isOwn && isAsked) {
    text.append(title(`ask about what ${name} knows`));
    text.addEventListener("click", () => choose({ q: lane }));
  }
  const line = isOwn ? [drawn("line", { class: "lane", x1: LEFT, x2: right, y1: y(lane), y2: y(lane) })] : [];
  return [...bandParts(lane, y(lane) - laneHeight() / 2 + rim, laneHeight() - 2 * rim, x, LEFT, right), text, ...line];
}

// Which mark and which colour each kind of step in sight has.
function legendParts(items) {
  const key = (sign, words) => made("span", [sign, words], "key");
  const kinds = KINDS.filter((kind) => items.some((it) => it.kind === kind)).map((kind) => (
    key(drawn("svg", { width: 18, height: 18, "aria-hidden": true }, markOf(kind, 9, 9)), kind === "notice" ? "notification" : kind)));
  const bands = state.chosen.place === null ? [] : [["knowing-false", "still counts something at or before it"], ["knowing-true", "has passed it"]];
  return [...kinds, ...bands.map(([name, words]) => key(made("i", [], name), words))];
}

function stepParts({ items, messages }) {
  if (!items.length) return densityParts(state.over.near || [], (p) => y(p) + laneHeight() / 2 - 3, laneHeight() - 6);
  return [...thinned(messages.map(updateArrow)), ...recordArrows(items), ...items.map(stepMark), ...(stepWidth() > 8 ? labelsOf(items) : [])];
}

function showSteps() {
  const { steps, over, chosen, picture: { at, kept, marks } } = state, { first, last } = steps, names = laneNames();
  const end = LEFT + plot, high = 8 + laneHeight() * names.length, right = Math.min(end, x(last) + stepWidth() / 2);
  const which = kept ? `steps ${first} to ${last} of ${kept}` : "no step yet", focused = document.activeElement?.closest("#spacetime .step");
  by("spacetime").replaceChildren(drawn("svg", { width: end + RIGHT, height: high, role: "group", "aria-label": `${which}, and the updates between processors` }, [
    ...names.flatMap((name, lane) => laneParts(name, lane, right)),
    ...truthLine(), ...stepParts(steps), ...ringsOf(),
    ...marks.filter((it) => it.at >= first - 1 && it.at <= last && it.p < about.processors).map(refusedMark),
    ...(at >= first - 1 && at <= last ? [cursorLine(x(at) + stepWidth() / 2, high)] : []),
  ]));
  if (focused && !focusStep(focused.dataset.position)) focusStep(at);
  by("known").textContent = chosen.place === null ? "Steps" : `Who knows that ${pointText("all before")} is finished`;
  by("range").textContent = over.said ? `${which}; ${over.said}` : which;
  by("kinds").replaceChildren(...legendParts(steps.items));
}

function focusStep(position) {
  const it = by("spacetime").querySelector(`[data-position="${position}"]`);
  if (it) it.focus();
  return Boolean(it);
}

// Up and down go from step to step, Enter goes to one, and with shift compares it.
function stepKeys(event) {
  const at = Number(event.target.dataset.position);
  if (!at) return;
  if (event.key === "Enter") (event.shiftKey ? compareWith : source.goToStep)(at);
  else if (event.key === "ArrowUp") focusStep(at - 1);
  else if (event.key === "ArrowDown") focusStep(at + 1);
  else return;
  event.preventDefault();
}

function showTime() {
  plot = Math.max(200, by("strip").clientWidth - LEFT - RIGHT);
  by("slider").style.marginLeft = `${LEFT - 8}px`;
  by("slider").style.width = `${plot + 16}px`;
  showStrip();
  showStairs();
  showSteps();
}

let pressedAt = null;
by("strip").addEventListener("pointerdown", (event) => { pressedAt = event.clientX; event.preventDefault(); });
window.addEventListener("pointerup", (event) => {
  if (pressedAt !== null && state.picture) brushed(pressedAt, event.clientX);
  pressedAt = null;
});
by("spacetime").addEventListener("keydown", stepKeys);
by("spacetime").addEventListener("wheel", (event) => {
  if (!event.ctrlKey) return;
  event.preventDefault();
  zoomSteps(event.deltaY > 0 ? 1.5 : 1 / 1.5);
}, { passive: false });
export const ZOOM_KEYS = { "+": "closer", "-": "wider", 0: "whole" };
export const ZOOMS = { closer: () => zoomSteps(0.5), wider: () => zoomSteps(2), whole: () => look(state.picture.kept, 1) };
view(["picture", "why", "sight", "over"], showTime);
new ResizeObserver(() => { if (state.picture) showTime(); }).observe(by("strip"));
const head = document.querySelector("header");
new ResizeObserver(() => document.documentElement.style.setProperty("--head", `${head.offsetHeight}px`)).observe(head);
