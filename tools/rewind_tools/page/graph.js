// The graph: what stands at each place, what changed there, what was asked about, and its size.
import { by } from "./base.js";
import { about, set, state, view } from "./store.js";
import { choosePlace } from "./why.js";

const COUNT_LETTER = 7.3, LARGEST_FIT = 1.5, LEAST_FIT = 0.75, SMALLEST_ZOOM = 0.3, LARGEST_ZOOM = 4;
const graph = document.querySelector(".graph"), frame = document.querySelector("#drawing .wide");
const places = [...document.querySelectorAll(".graph .place")], edges = [...document.querySelectorAll(".graph .edge")];

// What stands at a place, as the graph and as a screen reader have it.
function countText(here, isLabel) {
  if (!here) return "";
  if (isLabel && here.of.startsWith("record")) return `${here.n} ${here.when}`;
  return here.of === "counted" ? `counted ${here.n}` : `${here.n} ${here.of}`;
}

function placeName(number, here) {
  const { name, op } = about.places[number];
  const there = here ? `${countText(here)} ${here.when}`.trim() : "nothing is here";
  return `${name}, ${op === "edge" ? "edge" : `vertex, ${op}`}: ${there}`;
}

function showPlaces() {
  const { picture, before, chosen } = state, here = picture && picture.state.places, old = before && before.state.places;
  const marked = new Set(picture ? picture.marked : []);
  for (const place of places) {
    const { place: number } = place.dataset, it = here && here[number];
    showCount(place, it);
    place.querySelector(".count").dataset.n = it ? it.n : here ? "0" : "";
    place.querySelector("title").textContent = it ? [`${it.n} ${it.of}`, ...it.by].join("\n") : "nothing is here";
    place.setAttribute("aria-label", placeName(number, it));
    place.classList.toggle("busy", Boolean(it));
    place.classList.toggle("changed", marked.has(Number(number)) || Boolean(old) && JSON.stringify(it) !== JSON.stringify(old[number]));
    place.classList.toggle("asked", chosen.place === Number(number));
  }
  for (const edge of edges) edge.classList.toggle("busy-edge", Boolean(here && here[edge.dataset.edge]));
}

// A long count is as wide as its place.
function showCount(place, here) {
  const count = place.querySelector(".count"), room = place.querySelector("rect").width.baseVal.value - 6;
  count.textContent = countText(here, place.classList.contains("label"));
  if (count.textContent.length * COUNT_LETTER > room) count.setAttribute("textLength", room);
  else count.removeAttribute("textLength");
}

// Marks the places of some reasons.
export function showHolding(reasons) {
  const holding = new Set(reasons.map((it) => it.place));
  for (const place of places) place.classList.toggle("holds", holding.has(Number(place.dataset.place)));
}

// A large graph is scrolled to a place that the last step changed.
function showChangedPlace() {
  const place = document.querySelector(".graph .place.changed");
  if (!place) return;
  const around = frame.getBoundingClientRect(), box = place.getBoundingClientRect();
  if (box.left < around.left || box.right > around.right) frame.scrollLeft += box.left - around.left - around.width / 2;
  if (box.top < around.top || box.bottom > around.bottom) frame.scrollTop += box.top - around.top - around.height / 2;
}

function fitting() {
  const wide = Math.min(LARGEST_FIT, frame.clientWidth / Number(graph.dataset.width));
  const high = frame.clientHeight / Number(graph.dataset.height);
  return high < LEAST_FIT ? wide : Math.min(wide, high);
}

function showZoom() {
  const times = state.zoom || fitting();
  graph.style.width = `${Math.floor(Number(graph.dataset.width) * times)}px`;
  by("zoom").textContent = `${Math.round(times * 100)} %`;
}

function zoomBy(factor) {
  set({ zoom: Math.max(SMALLEST_ZOOM, Math.min(LARGEST_ZOOM, (state.zoom || fitting()) * factor)) });
}

if (graph) {
  by("larger").addEventListener("click", () => zoomBy(1.25));
  by("smaller").addEventListener("click", () => zoomBy(0.8));
  by("fit").addEventListener("click", () => set({ zoom: null }));
  new ResizeObserver(() => requestAnimationFrame(() => {
    if (state.zoom === null) showZoom();
    showChangedPlace();
  })).observe(frame);
  view(["zoom"], showZoom, false);
}
for (const place of places) {
  const choose = () => choosePlace(Number(place.dataset.place));
  place.addEventListener("click", choose);
  place.addEventListener("keydown", (event) => {
    if (event.key !== "Enter" && event.key !== " ") return;
    event.preventDefault();
    event.stopPropagation();
    choose();
  });
}
view(["picture", "chosen"], showPlaces, false);
view(["why"], () => showHolding((state.why && state.why.reasons) || []));
view(["picture"], () => requestAnimationFrame(showChangedPlace)); // after all is drawn
