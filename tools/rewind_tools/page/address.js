// The address of what is shown: run.html#at=11&why=0,out,0 is position 11 with the question about out (0) of processor 0;
// "&before" asks about all strictly before it. The browser's back goes to the address before.
import { about, placeNumber, question, set, source, state, view } from "./store.js";
import { askFirst, askWhy } from "./why.js";

const QUICK = 600;
// Whether the page goes where the address leads, as it does first; and when it noted an address last.
let isFollowing = true, notedAt = -QUICK;

function addressNow() {
  const why = question(), at = `#at=${state.position}`;
  if (!why) return at;
  const parts = [why.q, encodeURIComponent(why.at), ...(why.time || [])];
  return `${at}&why=${parts.join(",")}${why.before ? "&before" : ""}`;
}

// What an address names: a position, null if none, and a question.
export function addressOf(hash) {
  const values = new URLSearchParams(hash.slice(1)), at = Number.parseInt(values.get("at"), 10);
  const [q, place, ...time] = (values.get("why") || "").split(",");
  const number = place === undefined ? -1 : placeNumber(place), isTime = time.every((it) => /^\d+$/.test(it));
  const why = number >= 0 && Number(q) < about.processors && isTime
    ? { q: Number(q), place: number, time: time.length ? time.map(Number) : null, before: values.has("before") } : null;
  return { at: Number.isNaN(at) ? null : at, why };
}

// What is shown next takes no place in this tab's history.
export function noteNothing() {
  notedAt = performance.now();
}

// Notes where the page is. Of positions that follow one another quickly only the last stays in the browser's history.
function noteAddress() {
  if (isFollowing || addressNow() === location.hash) return;
  const hash = addressNow(), isQuick = !location.hash || performance.now() - notedAt < QUICK;
  noteNothing();
  history[isQuick ? "replaceState" : "pushState"](null, "", hash);
}

// Goes where the address leads.
async function followAddress() {
  const { at, why } = addressOf(location.hash);
  isFollowing = true;
  try {
    set({ chosen: why || { ...state.chosen, place: null, time: null, before: false } });
    await source.goToAddress(at);
    if (state.chosen.place !== null && !state.chosen.time) await askWhy();
  } finally {
    isFollowing = false;
  }
}

// Goes where the address led that the page was opened with, or else asks what seems to be asked.
export async function openAddress() {
  if (location.hash.length > 1) await followAddress();
  isFollowing = false;
  if (state.chosen.place === null) await askFirst();
  else noteAddress();
}

view(["picture", "why"], noteAddress, false);
window.addEventListener("popstate", followAddress);
