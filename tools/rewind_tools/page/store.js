// What the page knows, in one place, and the views that draw it.
export const about = JSON.parse(document.body.dataset.about);
export const state = {
  // Which position is shown, and what is there; the same one step before, if that was shown last; and what is asked beside
  // it. Of a recorded page a position is one of its own, of which `told` is all that is recorded.
  position: 0, told: {}, picture: null, before: null, steps: null, candidates: null, why: null,
  // The point and the processor that are asked about. Without a time it is the earliest that can arrive.
  chosen: { q: 0, place: null, time: null, before: false },
  // What is in sight: the first point of the table, the first candidate, a condition; how many steps and from which on,
  // null for those around the cursor; and at which cursor that was chosen.
  sight: { points: 0, candidates: 0, when: null, count: 60, first: null, of: null },
  // The processors that run, all if none is chosen; and how much larger than laid out the graph is, null to fit it in.
  only: [], zoom: null,
  // What is known of all kept steps; how the point can finish; the steps that were found; what is compared; the tab.
  over: { about: "null", said: "", lanes: [], density: [], near: null, carried: {}, origin: null, times: [] },
  finishing: null, found: null, compared: { position: null, states: null }, tab: "now",
  // Where the last command led.
  cursor: null,
  // The number of the session's state, and of the newest; whether the picture is older, and whether the last one took long.
  revision: 0, newest: 0, isStale: false, isSlow: false,
  // How many questions wait, whether these are cancelled, how far the first one is; and what is said.
  waiting: 0, isCancelled: false, progress: "", said: { text: "", isRefused: false },
};
// Where the answers come from: a live session (live.js), or the page itself (recorded.js).
export const source = {};
const views = [];

// Has a view drawn whenever a member changes that it shows; most views need a picture.
export function view(keys, draw, needsPicture = true) {
  views.push({ keys, draw, needsPicture });
}

// Has what follows from some members computed before views are drawn.
export function derived(keys, compute) {
  views.unshift({ keys, draw: compute, needsPicture: true });
}

export function set(changes) {
  Object.assign(state, changes);
  for (const it of views) {
    if (it.keys.some((key) => key in changes) && (state.picture || !it.needsPicture)) it.draw();
  }
}

export function say(text, isRefused = false) {
  set({ said: { text, isRefused } });
}

export function processors() {
  return Array.from({ length: about.processors }, (_, p) => `processor ${p}`);
}

export function placeNumber(name) {
  return about.places.findIndex((it) => it.name === name);
}

// The question why a point is not finished, if one is chosen.
export function question() {
  const { q, place, time, before } = state.chosen;
  return place === null ? null : { q, at: about.places[place].name, time, before };
}
