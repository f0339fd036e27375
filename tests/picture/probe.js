// Stands behind the script of a page under test: does what a reader does, and writes down what came of it.
"use strict";
(() => {
const wrong = [];
window.addEventListener("error", (event) => wrong.push(event.message));
window.addEventListener("unhandledrejection", (event) => wrong.push(String(event.reason)));

const { view, data, xOf, places, drawn, isReady } = window.picture;
const pause = () => new Promise((done) => { setTimeout(done, 20); });
const settled = async () => { do await pause(); while (!isReady()); };
const press = (key) => canvas.dispatchEvent(new KeyboardEvent("keydown", { key, bubbles: true, cancelable: true }));
const at = (kind, x, y, more) => {
  const box = canvas.getBoundingClientRect();
  return new (kind === "wheel" ? WheelEvent : MouseEvent)(kind,
    { clientX: box.left + x, clientY: box.top + y, bubbles: true, cancelable: true, ...more });
};
const seen = () => [Math.round(view.begin), Math.round(view.end)];
const rows = () => [...document.querySelectorAll("#tasks tbody tr")].map((row) => row.cells[0].textContent);

// Of each part of the lanes how many chunks were unpacked, and how many it has.
function unpackedOf(name) {
  const count = (chunks) => [chunks.filter((chunk) => chunk.open).length, chunks.length];
  const parts = data.lanes.map((lane) => lane[name]);
  if (Array.isArray(parts[0])) return count(parts.flat());
  return Object.fromEntries(Object.keys(parts[0]).map((key) => [key, count(parts.flatMap((part) => part[key]))]));
}

const kinds = () => [...new Set(drawn().map((one) => one.kind))].sort();

// What a click tells of one that is drawn, at this place of it or in its middle.
function clicked(one, x = one.x + one.wide / 2) {
  canvas.dispatchEvent(at("click", x, one.y + one.high / 2));
  return byId("details").textContent;
}

// The colour of the canvas at a place.
function colourAt(x, y) {
  const ratio = window.devicePixelRatio || 1;
  return [...canvas.getContext("2d").getImageData(Math.round(x * ratio), Math.round(y * ratio), 1, 1).data].slice(0, 3);
}

async function probed() {
  const told = { loaded: performance.now() };
  await settled();
  told.ready = performance.now();
  told.headline = byId("headline").textContent;
  told.why = byId("why").textContent;
  told.whole = seen();
  told.kinds = kinds();
  told.unpacked = Object.fromEntries(["runs", "waits", "levels", "longest", "points", "peaks"].map(
    (name) => [name, unpackedOf(name)]));
  told.marked = performance.getEntriesByName("ready").length;
  told.rows = rows();
  if (data.fault) {
    const x = xOf(data.fault.time);
    told.fault = { share: (x - LEFT) / width(), colour: colourAt(x, places().height - 2) };
  }
  const run = drawn().find((one) => one.kind === "runs" || one.kind === "bucket");
  if (run) told.clicked = clicked(run);
  const waits = drawn().filter((one) => one.kind === "waits");
  const longest = waits.find((one) => waits.every((other) => other.wide <= one.wide));
  if (longest) told.longest = clicked(longest);
  const middle = LEFT + width() / 4, time = timeOf(middle), before = view.end - view.begin;
  canvas.dispatchEvent(at("wheel", middle, 30, { deltaY: -100 }));
  await settled();
  told.wheel = { factor: (view.end - view.begin) / before, moved: Math.abs(xOf(time) - middle) };
  press("0");
  press("+");
  await settled();
  told.nearer = seen();
  press("ArrowRight");
  told.moved = seen();
  press("-");
  press("0");
  told.again = seen();
  press("f");
  told.toFault = seen();
  press("0");
  for (let times = 0; times < 12; times += 1) press("+");
  await settled();
  told.nearest = kinds();
  const x = LEFT + width() / 2 + 4, around = drawn().find((one) => one.kind === "runs" && one.x < x
    && x < one.x + one.wide);
  if (around) told.middle = clicked(around, x);
  press("0");
  const field = byId("search");
  field.value = PROBE_SEARCH;
  field.dispatchEvent(new Event("input"));
  await settled();
  told.found = rows();
  field.dispatchEvent(new KeyboardEvent("keydown", { key: "Enter" }));
  await pause();
  await settled();
  told.next = byId("details").textContent;
  field.value = "";
  field.dispatchEvent(new Event("input"));
  const byPid = () => document.querySelector("#tasks th").click();
  byPid();
  told.rising = rows();
  byPid();
  told.falling = rows();
  told.wrong = wrong;
  return told;
}

probed().catch((error) => ({ wrong: [...wrong, error.stack] })).then((told) => {
  const place = document.createElement("script");
  place.type = "application/json";
  place.id = "told";
  place.textContent = JSON.stringify(told).replaceAll("<", "\\u003c");
  document.body.append(place);
});
})();
