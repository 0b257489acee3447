// How a point can still finish: what somebody must do and what the protocol then does, or on request the fewest steps;
// and one click that executes them all.
import { asked, CANCELLED, inTurn, progress, refresh } from "./asking.js";
import { button, by, made, plural } from "./base.js";
import { carried, execute, sayTold } from "./commands.js";
import { placeNumber, question, say, set, state } from "./store.js";
import { choose } from "./why.js";

export function finishButton(ask, then) {
  return button("How can this finish?", () => findFinish({ ...ask, ...(then ? { then } : {}) }));
}

// Asks how a point can finish, beside the reasons why it has not: "finish", or "fewest" for the fewest steps.
export async function findFinish(ask, path = "finish") {
  await choose({ q: ask.q, place: placeNumber(ask.at), time: ask.time, before: Boolean(ask.before) });
  await inTurn(async () => {
    progress(path === "finish" ? "looking for what is left at rest" : "looking for the fewest steps");
    const told = await asked(path, ask);
    set({ finishing: told.stopped ? null : { ...told, ask, path } });
    if (told.stopped) say(told.stopped, told.stopped !== CANCELLED);
  });
  if (by("finish")) by("finish").scrollIntoView({ block: "nearest" });
}

// Whether the last answer is about the state and the point that are shown.
function isFinishingShown() {
  const { finishing, revision } = state, now = question();
  const ofThat = ({ q, at, time, before }) => JSON.stringify([q, at, time, Boolean(before)]);
  return finishing && finishing.revision === revision && now.time && ofThat(finishing.ask) === ofThat(now);
}

// How many steps a line is: a run executes many.
function stepsOf(line) {
  const { do: word, limit } = JSON.parse(line);
  return word === "run" ? limit : 1;
}

// Executes the lines one after the other, up to one that is refused or a run that a breakpoint stops; then the page shows
// where they lead.
async function executeAll(lines) {
  let told, discarded = null, count = 0, isCut = false;
  for (const line of lines) {
    told = await carried(line);
    discarded = discarded || told.discarded;
    if (told.refused) break;
    count += told.reply.ran === undefined ? 1 : told.reply.ran;
    isCut = told.reply.ran < stepsOf(line);
    if (isCut) break;
  }
  await refresh();
  return sayTold({ ...told, discarded, words: told.refused || isCut ? told.words : [`executed ${plural(count, "step")}`] });
}

function finishSteps({ steps, ends }) {
  if (!steps.length) return [];
  const lines = steps.map((it) => it.line), sum = lines.map(stepsOf).reduce((one, other) => one + other);
  const list = made("ol", steps.map((it) => (
    made("li", [made("span", it.words, `step-words kind-${it.kind}`), ...(it.what ? [made("small", it.what)] : [])]))), "list");
  const press = button(`execute ${sum === 1 ? "this step" : `these ${sum} steps`}`, () => execute(lines[0], () => executeAll(lines)));
  return ends ? [list, press] : [list];
}

// The part of the panel "why" that says how the point can finish; nothing if it is finished.
export function finishPart(told) {
  if (told.passed) return [];
  if (!isFinishingShown()) return [finishButton({ ...question(), time: told.time })];
  const { error, words, steps, notes, more, path, ask } = state.finishing;
  const part = made("div", [
    ...(words === told.rest ? [] : [made("p", error || words, error ? "refused" : "")]),
    ...(steps ? finishSteps(state.finishing) : []),
    ...(notes || []).map((it) => made("p", it, "none")),
    ...(more ? [button(`look at ${more} states`, () => findFinish({ ...ask, limit: more }, "fewest"))] : []),
    ...(path === "fewest" ? [] : [button("look for the fewest steps", () => findFinish(ask, "fewest"))]),
  ]);
  part.id = "finish";
  return [part];
}
