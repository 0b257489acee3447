// What is known of all kept steps: which of them are in sight, and from where on each lane's condition holds.
import { timeText } from "./base.js";
import { about, processors, question, state } from "./store.js";

export const MOST_LISTED = 400, BINS = 300;
export const KINDS = ["feed", "take", "notice", "send", "release", "broadcast", "receive"];

// The first and the last step in sight: as live/sight.py has it.
export function windowOf(cursor, kept, { count, first, of }) {
  const isAway = first === null || (cursor !== of && (cursor < first - 1 || cursor >= first + count));
  const wanted = isAway ? cursor - Math.floor(count / 2) : first;
  const from = Math.max(1, Math.min(wanted, kept - count + 1));
  return [from, Math.min(kept, from + count - 1)];
}

// The question about all kept steps, which is asked again whenever one of its parts is another.
export function overQuestion() {
  const { picture, steps, sight, chosen } = state, why = question(), [reason] = (state.why && state.why.reasons) || [];
  return {
    why: why && why.time ? why : null, when: sight.when, window: [steps.first, steps.last],
    bins: Math.min(BINS, Math.max(1, picture.kept)),
    origin: why && reason && reason.at ? { q: chosen.q, at: reason.at, time: reason.time } : null,
  };
}

// A lane for each processor, one for the truth if a point is asked about, and one for the person's own condition.
export function laneNames() {
  const asked = state.chosen.place === null ? [] : ["truth"];
  return [...processors(), ...asked, ...(ownLane() ? ["condition"] : [])];
}

// What is known of the person's own condition.
export function ownLane() {
  const { about: asked, lanes } = state.over;
  return lanes[asked === "null" ? 0 : about.processors + 1];
}

// Whether what is known is about the point that is asked about.
export function isAnswered() {
  return state.over.about === JSON.stringify(overQuestion().why);
}

// From which position on the condition of a lane holds or does not hold; null if that is not known.
export function bandsOf(lane) {
  const { kept } = state.picture, isOwn = laneNames()[lane] === "condition";
  const known = isOwn ? ownLane() : isAnswered() && state.over.lanes[lane];
  if (!known || known.error) return [{ from: 0, to: kept, holds: null }];
  const bands = known.at_lo === null ? [] : bandsIn({ lo: 0, ...known });
  const last = known.at_lo === null ? 0 : Math.min(known.to, kept), { near } = known;
  const isNear = near && near.lo >= last && near.to <= kept;
  if (isNear) bands.push({ from: last, to: near.lo, holds: null }, ...bandsIn(near));
  const end = isNear ? near.to : last;
  return end < kept ? [...bands, { from: end, to: kept, holds: null }] : bands;
}

function bandsIn({ lo, at_lo: atLo, turns, to }) {
  const { kept } = state.picture, ends = [lo, ...turns.filter((at) => at <= kept), Math.min(to, kept)];
  return ends.slice(1).map((end, at) => ({ from: ends[at], to: end, holds: atLo === (at % 2 === 0) }));
}

// The positions from which on the condition of a lane holds.
export function turnsOf(lane) {
  const bands = bandsOf(lane);
  return bands.filter((it, at) => it.holds && at > 0 && bands[at - 1].holds === false).map((it) => it.from);
}

export function compareTimes(one, other) {
  const at = one.findIndex((it, number) => it !== other[number]);
  return at < 0 ? 0 : one[at] - other[at];
}

// The earliest times that can arrive at the point's place, each once and in order.
export function earliestTimes(samples) {
  const all = samples.flatMap(([, times]) => times.filter((it) => it.length).map((it) => [timeText(it[0]), it[0]]));
  return [...new Map(all).values()].sort(compareTimes);
}

// Numbers in words: 0, 1, 4 to 7.
function ranges(numbers) {
  const parts = [];
  for (const it of numbers) {
    const last = parts[parts.length - 1];
    if (last && last[1] === it - 1) last[1] = it;
    else parts.push([it, it]);
  }
  return parts.map(([one, other]) => (one === other ? `${one}` : `${one}${other === one + 1 ? ", " : " to "}${other}`)).join(", ");
}

export function processorsText(numbers) {
  return `${numbers.length === 1 ? "processor" : "processors"} ${ranges(numbers)}`;
}

// Groups what is alike: the groups in the order of their first members.
export function grouped(items, keyOf) {
  const groups = new Map();
  for (const it of items) groups.set(keyOf(it), [...(groups.get(keyOf(it)) || []), it]);
  return [...groups.values()];
}
