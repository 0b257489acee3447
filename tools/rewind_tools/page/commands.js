// What a live page has the session do: steps, runs and jumps, and files of the kept steps.
import { asked, inSight, inTurn, progress, refresh, take } from "./asking.js";
import { by, GREATEST_SEED, made, numberOf, plural } from "./base.js";
import { about, say, set, state } from "./store.js";

const FIRST_PIECE = 200, SMALLEST_PIECE = 20, LARGEST_PIECE = 20000, PIECE_TAKES = 250, MOST_STEPS = 1000000n;
const STEPS = ["feed", "take", "notice", "send", "release", "broadcast", "receive", "run"];

// A line is an object, or the text of one, whose numbers a browser would round.
function textOf(line) {
  return typeof line === "string" ? line : JSON.stringify(line);
}

// Executes a command. One that discards kept steps is asked about first. Returns whether it was executed.
export async function execute(line, carry = command) {
  const text = textOf(line), { at, kept } = state.picture;
  if (STEPS.includes(JSON.parse(text).do) && at < kept && !(await isWarned(kept - at))) return false;
  return Boolean(await inTurn(() => carry(text)));
}

// Asks whether steps may be discarded, which can be saved first.
function isWarned(count) {
  by("warns").textContent = `Executing another step here discards the ${plural(count, "later step")}. They can be brought back.`;
  by("warning").showModal();
  return new Promise((done) => {
    const end = (isGoing) => { by("warning").close(); done(isGoing); };
    by("go-on").onclick = () => end(true);
    by("save-first").onclick = async () => { if (await save()) end(true); };
    by("leave").onclick = by("warning").oncancel = () => end(false);
  });
}

// Says what was answered; returns whether the command was executed.
export function sayTold({ words, discarded, refused }) {
  say([...words, discarded].filter(Boolean).join("; "), refused);
  return !refused;
}

// Asks the server to execute a line without a picture; returns the answer.
export async function carried(line, more = {}) {
  const told = await asked("command", { line: textOf(line), revision: state.revision, sight: null, ...more });
  set({ revision: told.revision, ...(told.reply.at === undefined ? {} : { cursor: told.reply }) });
  return told;
}

// Executes a command. If others wait behind it, as when a key is held down, the picture is asked for after the last;
// and if pictures take long, where the command led is shown before the picture.
async function command(text) {
  const hasPicture = state.waiting === 1 && !state.isSlow, told = await carried(text, hasPicture ? { sight: inSight() } : {});
  sayTold(told);
  if (hasPicture) await take(told);
  else state.isStale = true;
  return !told.refused;
}

// The number of steps of the next piece, which is to take a quarter of a second.
function nextPiece(piece, taken) {
  return Math.round(Math.max(SMALLEST_PIECE, Math.min(LARGEST_PIECE, piece * Math.min(8, PIECE_TAKES / Math.max(1, taken)))));
}

// A run in pieces, so that it shows how far it is and can be cancelled. A short run is one question.
async function runInPieces(text) {
  const { limit } = JSON.parse(text);
  if (limit <= FIRST_PIECE) return command(text);
  let ran = 0, piece = FIRST_PIECE, told, discarded = null;
  do {
    const begun = performance.now(), count = Math.min(piece, limit - ran);
    told = await carried(text.replace(/"limit":\d+/, `"limit":${count}`), { ran });
    discarded = discarded || told.discarded;
    if (told.refused) break;
    ran = told.reply.ran;
    piece = nextPiece(piece, performance.now() - begun);
    progress(`ran ${ran} of ${limit} steps`);
  } while (!state.isCancelled && ran < limit && told.reply.stop === "limit");
  const isCut = state.isCancelled && told.reply.stop === "limit" && ran < limit;
  await refresh();
  return sayTold({ ...told, discarded, words: isCut ? [`cancelled: ran ${ran} steps`] : told.words });
}

// Runs the processors that are chosen, or all. The line is a text, since a browser would round the seed.
export function run(count) {
  const hasSeed = by("choice").selectedIndex === 1, limit = count ? { number: count } : numberOf(by("limit").value, MOST_STEPS);
  const seed = hasSeed ? numberOf(by("seed").value, GREATEST_SEED) : {};
  if (limit.fault) return say(`run: at most how many steps? ${limit.fault}`, true);
  if (seed.fault) return say(`by lot: which seed? ${seed.fault}`, true);
  const { only } = state;
  return execute(`{"do":"run","limit":${limit.number}${only.length ? `,"only":[${only}]` : ""}${hasSeed ? `,"seed":${seed.number}` : ""}}`, runInPieces);
}

export function step(word) {
  return inTurn(() => command({ do: word }));
}

// A jump, in pieces if the program would walk long. It begins at the start, if that is nearer than the cursor.
async function jumpInPieces(to) {
  let { reach, at } = state.picture;
  if (to < Math.abs(to - at)) at = 0;
  while (!state.isCancelled && Math.abs(to - at) > reach) {
    const begun = performance.now();
    at += Math.sign(to - at) * reach;
    await carried({ do: "jump", to: at });
    progress(`at position ${at}, on the way to ${to}`);
    reach = nextPiece(reach, performance.now() - begun);
  }
  return state.isCancelled ? refresh() : command({ do: "jump", to });
}

export async function jump(to) {
  const { at, kept } = state.picture;
  if (to !== at && to >= 0 && to <= kept) await inTurn(() => jumpInPieces(to));
}

// Shows another part of what there is.
export function refreshed(changes) {
  set({ sight: { ...state.sight, ...changes } });
  return inTurn(refresh);
}

export function bringBack() {
  return inTurn(async () => {
    const told = await asked("bring-back", { revision: state.revision, sight: inSight() });
    sayTold(told);
    return take(told);
  });
}

function download(text, kind, ending) {
  const link = made("a");
  link.href = URL.createObjectURL(new Blob([text], { type: kind }));
  link.download = about.name.replace(/(\.jsonl)?$/, ending);
  link.click();
  URL.revokeObjectURL(link.href);
  return link.download;
}

// Saves the kept steps as a script; returns whether that was done.
export function save() {
  return inTurn(async () => {
    const told = await asked("save", {}), name = download(told.script, "text/plain", "-kept.jsonl");
    document.body.dataset.saved = told.script;
    say(`saved as ${name}; ./rewind ${told.words.join(" ")} < ${name} executes it again`);
    return true;
  });
}

// The page as one file with the kept steps, those after the cursor too.
export function exportPage() {
  return inTurn(async () => {
    progress("recording the page");
    const told = await asked("export", {});
    if (told.stopped) return say(told.stopped, true);
    document.body.dataset.exported = told.page.length;
    return say(`exported as ${download(told.page, "text/html", ".html")}`);
  });
}
