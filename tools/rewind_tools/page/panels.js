// What can happen, what the last step changed, the table, what processors hold, and the breakpoints.
import { button, by, labelled, made, redrawn, timeOf } from "./base.js";
import { grouped, processorsText } from "./known.js";
import { about, placeNumber, source, state, view } from "./store.js";
import { choose, explain } from "./why.js";

// Which page of a long list is shown, with buttons to the pages before and after it; nothing if one page has all.
// A recorded page has the first one alone.
function pager(key, { first, count, more }, shown) {
  const all = `${more ? "more than " : ""}${count}`;
  if (shown === count && !more) return [];
  if (!source.isLive) return [made("p", `the first ${shown} of ${all}`, "none")];
  const earlier = labelled(button("\u25c0", () => source.showFrom(key, Math.max(0, first - 1))), "show the ones before these");
  const later = labelled(button("\u25b6", () => source.showFrom(key, first + shown)), "show the next ones");
  earlier.disabled = first === 0;
  later.disabled = first + shown >= count;
  return [made("div", [earlier, made("span", `${first + 1} to ${first + shown} of ${all}`, "soft"), later], "bar")];
}

// ---- what can happen, and what changed

// A step that waits says why; another is executed, if the list is the newest.
function candidateRow(it) {
  const classes = `kind-${it.kind}${it.refused ? " waits" : ""}`, words = [it.words, ...(it.refused ? [made("small", it.refused)] : [])];
  if (!source.isLive && !it.ask) return made("li", made("span", words, `step-words ${classes}`));
  const act = () => (it.refused ? explain(it) : source.execute(it.line));
  return made("li", [button(words, () => (state.candidates ? act() : undefined), classes), ...(source.isLive ? formsOf(it) : [])]);
}

// What stands under a capability, and under a notification that waits.
function formsOf(it) {
  if (it.release) return source.heldForms(it.release);
  return it.ask ? [made("div", source.finishButton(it.ask, it.line), "form")] : [];
}

// From three processors on that wait alike, one row for all of them; and from five queues on that hold the same.
const ALIKE = 3, MANY_QUEUES = 5;
// From how many processors on neighbours that view the same, and have the same unsent, are one column.
const MANY_COLUMNS = 9;

function alikeKey(it) {
  const words = [it.words, it.refused].map((text) => text && text.replaceAll(`processor ${it.p}`, "processor p"));
  return it.refused ? JSON.stringify(words) : it.line;
}

function groupRows(group) {
  const [it] = group;
  if (group.length < ALIKE) return group.map(candidateRow);
  const all = processorsText(group.map((one) => one.p));
  const each = (text) => text.replaceAll(`processor ${it.p}'s view has`, "each view has").replaceAll(`processor ${it.p}`, all)
    .replace(/ (runs|holds) /, (verb) => ` ${verb.trim().slice(0, -1)} `);
  return [candidateRow({ ...it, words: each(it.words), refused: each(it.refused) })];
}

function showCandidates() {
  const { candidates, picture } = state;
  by("candidates").setAttribute("aria-busy", !candidates);
  if (!candidates) return;
  const rows = grouped(candidates.items, alikeKey).flatMap(groupRows);
  const none = picture.inputs.length ? "no step is left but a feed" : "no step is left: every input is closed";
  redrawn(by("candidates"), ...(rows.length ? rows : [made("li", none, "none")]));
  redrawn(by("more"), ...pager("candidates", candidates, candidates.items.length));
}

function showEffect() {
  const { effect, at } = state.picture, none = at ? "this long page leaves that out here; tools/live has it" : "this is the start";
  if (!effect) return by("effect").replaceChildren(made("p", none, "none"));
  return by("effect").replaceChildren(made("p", `${at}. ${effect.step}`), made("ul", effect.words.map((text) => made("li", text))));
}

// ---- the table

function cell(text, old, classes) {
  const all = [...classes, (text === "" || text === "0") && "none", old !== undefined && old !== text && "changed"];
  return made("td", made("span", text === "" ? "\u00b7" : text), all.filter(Boolean).join(" "));
}

function viewCell(row, text, p, old) {
  const it = cell(text, old, [p === 0 && "edged", text !== row.truth && "apart", row.front[p] && "front"]);
  const [place, time] = row.at.split("\u00a0"), front = row.front[p] ? ", on its frontier" : "";
  const press = button(text, () => choose({ q: p, place: placeNumber(place), time: timeOf(time).time, before: false }));
  it.replaceChildren(labelled(press, `processor ${p} views ${text} at ${place} ${time}${front}, the truth is ${row.truth}: ask why`));
  return it;
}

// A row of the table. `old` is the row of the picture before, if there is one.
function pointRow([row, old], columns) {
  const point = Object.assign(made("th", row.at), { scope: "row" }), was = (kind, p) => old && old[kind][p];
  return made("tr", [
    point, cell(row.truth, old && old.truth, ["edged"]),
    ...columns.map(([p]) => viewCell(row, row.view[p], p, was("view", p))),
    ...columns.map(([p]) => cell(row.unsent[p], was("unsent", p), [p === 0 && "edged"])),
  ]);
}

// The processors, each alone, or of many the neighbours together whose columns are the same.
function columnsOf(rows) {
  const all = [...Array(about.processors).keys()], ofAll = rows.flat().filter(Boolean), columns = [];
  if (all.length < MANY_COLUMNS) return all.map((p) => [p]);
  const keys = all.map((p) => JSON.stringify(ofAll.map((it) => [it.view[p], it.unsent[p], it.front[p]])));
  for (const p of all) {
    if (p && keys[p] === keys[p - 1]) columns[columns.length - 1].push(p);
    else columns.push([p]);
  }
  return columns;
}

export function emptyRow(at) {
  const all = (value) => Array.from({ length: about.processors }, () => value);
  return { at, truth: "0", view: all("0"), unsent: all(""), front: all(0) };
}

export function columnHead(text, words, classes) {
  const it = Object.assign(made("th", text, classes), { scope: "col" });
  return words === text ? it : labelled(it, words);
}

function tableHead(columns) {
  const textOf = (its) => (its.length > 1 ? `${its[0]} to ${its[its.length - 1]}` : `${its[0]}`);
  const heads = (kind) => columns.map((its) => columnHead(`${its[0] ? "" : `${kind} `}${textOf(its)}`, `${kind} of ${processorsText(its)}`, its[0] ? "" : "edged"));
  return made("tr", [columnHead("point", "location and time"), columnHead("truth", "truth", "edged"), ...heads("view"), ...heads("unsent")]);
}

// The rows of now, and those that are gone since the picture before, each with its row there.
function tableRows() {
  const { picture: { state: { points, first, count } }, before } = state;
  const isAll = points.length === count && before && before.state.points.length === before.state.count;
  const old = new Map((isAll ? before.state.points : []).map((it) => [it.at, it])), here = new Set(points.map((it) => it.at));
  const gone = first === 0 ? [...old.keys()].filter((at) => !here.has(at)) : [];
  return [...points, ...gone.map(emptyRow)].map((it) => [it, isAll ? old.get(it.at) || emptyRow(it.at) : undefined]);
}

function showPoints() {
  const rows = tableRows(), all = state.picture.state, columns = columnsOf(rows);
  const wide = made("div", rows.length ? made("table", [tableHead(columns), ...rows.map((it) => pointRow(it, columns))]) : made("p", "nothing is outstanding", "none"), "wide");
  wide.tabIndex = 0;
  redrawn(by("table"), ...pager("points", all, all.points.length), wide);
}

// ---- what processors hold, and the breakpoints

function heading(text, rows, none) {
  return [made("h2", text), ...(rows.length ? rows : [made("p", none, "none")])];
}

// Processors that hold the same, and held the same before, have one row.
function processorRow(numbers) {
  const { picture, before } = state, [p] = numbers, it = picture.state.processors[p], old = before && before.state.processors[p];
  const parts = Object.entries(it).flatMap(([kind, texts]) => {
    const isChanged = old && JSON.stringify(old[kind]) !== JSON.stringify(texts);
    if (!texts.length && !isChanged) return [];
    return [made("span", `${kind} `, isChanged ? "changed" : "none"), ...(texts.length ? texts : ["none"]).map((text) => made("span", text, "chip"))];
  });
  return made("div", [made("b", processorsText(numbers)), ...(parts.length ? parts : [made("span", "nothing", "none")])], "row");
}

// Queues from one processor that hold the same have one row, if there are some.
function queueRows(group) {
  const [{ from, changes }] = group, row = (to) => made("div", [made("b", `${from} \u2192 ${to}`), ...changes.map((text) => made("span", text, "chip"))], "row");
  return group.length < MANY_QUEUES ? group.map((it) => row(it.to)) : [row(processorsText(group.map((it) => it.to)))];
}

function showProcessors() {
  const { picture, before } = state, { processors: all, queues } = picture.state;
  const alike = grouped([...all.keys()], (p) => JSON.stringify([all[p], before && before.state.processors[p]]));
  const sameQueues = grouped(queues, (it) => JSON.stringify([it.from, it.changes]));
  by("processors").replaceChildren(...heading("What each processor holds", alike.map(processorRow), "nothing"));
  by("queues").replaceChildren(...heading("Updates on their way, the first to arrive first", sameQueues.flatMap(queueRows), "all queues are empty"));
}

function breakRow(it) {
  const remove = labelled(button("remove", () => source.execute({ do: "unbreak", id: it.id })), `remove breakpoint ${it.id}`);
  const words = it.when + (it.holds ? ": the run stopped here" : "");
  return made("div", [made("b", `breakpoint ${it.id}`, it.holds ? "changed" : ""), made("span", words), ...(source.isLive ? [remove] : [])], "row");
}

function showBreaks() {
  const none = source.isLive ? [] : [made("span", "no breakpoint is set", "none")], rows = state.picture.breaks.map(breakRow);
  redrawn(by("breaks"), ...(rows.length ? rows : none));
}

view(["picture", "candidates"], showCandidates);
view(["picture"], () => {
  showEffect();
  showPoints();
  showBreaks();
  showProcessors();
});
