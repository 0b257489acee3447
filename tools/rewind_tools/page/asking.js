// The questions of a live page to its server, one after the other, and what is asked beside them.
import { by } from "./base.js";
import { overQuestion } from "./known.js";
import { question, say, set, state, view } from "./store.js";

const BUSY_AFTER = 500, SLOW = 800;
export const CANCELLED = "cancelled";
export const GONE = "the server is gone: this page shows what it answered last; start tools/live again, which names a file if steps were not saved";
let last = Promise.resolve();

export async function asked(path, value) {
  const begun = performance.now();
  let answer;
  try {
    answer = await fetch(path, { method: "POST", headers: { "Content-Type": "application/json" }, body: JSON.stringify(value) });
  } catch {
    throw new Error(GONE);
  }
  const told = await answer.json();
  if (told.picture) state.isSlow = performance.now() - begun > SLOW;
  if (!answer.ok) throw Object.assign(new Error(told.error), { status: answer.status });
  return told;
}

// Does what asks questions after all that waits, so that answers come in the order of clicks: its result, undefined if it
// fails or is cancelled. A cancel is of all that wait.
export function inTurn(action) {
  let hasFailed = false;
  const fail = (fault) => { hasFailed = true; say(fault.message, true); };
  set({ waiting: state.waiting + 1, ...(state.waiting ? {} : { isCancelled: false }) });
  last = last.then(() => (state.isCancelled ? undefined : action())).catch((fault) => {
    if (fault.status !== 409) return fail(fault);
    say(fault.message, true);
    return refresh();
  }).catch(fail).finally(() => {
    set({ waiting: state.waiting - 1 });
    if (!state.waiting && !hasFailed && (state.isStale || state.newest > state.revision)) inTurn(refresh);
  });
  return last;
}

export function progress(text) {
  set({ progress: text });
}

export function cancel() {
  set({ isCancelled: true, progress: CANCELLED });
  say(CANCELLED);
  asked("cancel", {}).catch((fault) => say(fault.message, true));
}

// What is in sight; the candidates are asked for after the picture, since the program tries each.
export function inSight() {
  const { sight, chosen } = state;
  return { ...sight, candidates: null, why: chosen.time || chosen.place === null ? question() : null };
}

export async function refresh() {
  return take(await asked("picture", { sight: inSight() }));
}

// Takes a picture, and asks for the candidates, unless another question waits.
export async function take({ picture, revision }) {
  const { picture: old, sight } = state, before = old && picture.at === old.at + 1 ? old : null;
  const { why, steps } = picture;
  set({ revision, before, picture, position: picture.at, why, steps, candidates: null, isStale: state.waiting > 1, sight: { ...sight, first: steps.first } });
  if (state.isStale) return;
  const told = await asked("candidates", { first: sight.candidates });
  if (told.revision === revision) set({ candidates: told.candidates });
  else state.isStale = true;
}

// ---- what is known of all kept steps, which is asked beside the other questions, a piece at a time

let knownFor = "", isLooking = false;

async function lookAtAll() {
  if (isLooking) return;
  isLooking = true;
  try {
    for (let ask = overQuestion(); knownFor !== JSON.stringify([state.picture.changes, ask]); ask = overQuestion()) {
      const told = await asked("overview", ask);
      if (told.stopped === CANCELLED && !state.isCancelled) continue; // by another tab
      if (told.stopped) break;
      if (told.whole) knownFor = JSON.stringify([told.changes, ask]);
      set({ over: { ...told, about: JSON.stringify(ask.why), said: told.whole ? "" : `looked at ${lookedAt(told)} of ${told.kept}` } });
    }
  } catch (fault) {
    if (fault.message !== GONE) say(fault.message, true);
  } finally {
    isLooking = false;
  }
}

// How many positions were looked at, on the average of the lanes.
function lookedAt({ read, lanes }) {
  const all = [read, ...lanes.filter((it) => !it.error).map((it) => it.to)];
  return Math.floor(all.reduce((one, other) => one + other) / all.length);
}

let busyTimer = null;
view(["waiting"], () => {
  if (state.waiting && !busyTimer) busyTimer = setTimeout(() => { by("busy").hidden = false; }, BUSY_AFTER);
  if (state.waiting) return;
  clearTimeout(busyTimer);
  busyTimer = null;
  by("busy").hidden = true;
  progress("");
}, false);
view(["progress"], () => { by("progress").textContent = state.progress || "working"; }, false);
view(["picture", "why", "sight"], lookAtAll);
