"use strict";
const data = JSON.parse(document.getElementById("data").textContent);
const byId = (id) => document.getElementById(id);
const canvas = byId("canvas"), pen = canvas.getContext("2d");

// Times are in nanoseconds from the picture's begin on; what is on the screen is from view.begin to view.end.
const view = { begin: 0, end: Math.max(1, data.span) };
const LEFT = 76, RUN = 20, ROW = 9, GAP = 10, CHART = 96, LEAST_SPAN = 20;
// So many stretches are drawn as they are, and so many points of a measure; and so many buckets of a few lanes.
const MOST_NEAR = 80000, MOST_POINTS = 20000, MOST_BUCKETS = 4096, FEW_LANES = 8, MOST_TASKS = 300;
// A column's name begins with its kind.
const KINDS = { B: Uint8Array, H: Uint16Array, I: Uint32Array, i: Int32Array, q: BigInt64Array };
const COLUMNS = ["begins", "lengths", "before", "tasks", "first", "last", "rows", "charges", "from", "to", "times",
  "values", "lines", "busy", "waiting"];
const CHARTS = [
  { title: "lead of each pick", parts: [["lead", "granularity", 1]] },
  { title: "placement: woken below, born above the floor", parts: [["under", "credit", -1], ["over", "debit", 1]] },
  { title: "idling beside a waiting task", parts: [["idled", "slack", 1]] },
  { title: "drift of told charges", parts: [["drift", "drift", 1]], joined: true },
];
let found = new Set(), chosen = null, drawn = [], waiting = 0, asked = false, near = true, first = null;

// ---- numbers, as they were packed

// The name of a column that is drawn first says where in their text it stands.
async function unpacked(name) {
  if (!name.includes("@")) return new KINDS[name[0]](await inflated(name));
  first ||= inflated("first");
  const [from, count] = name.slice(2).split("+").map(Number);
  return new KINDS[name[0]](await first, from, count);
}

async function inflated(name) {
  const letters = atob(byId(name).textContent), bytes = new Uint8Array(letters.length);
  for (let index = 0; index < letters.length; index += 1) bytes[index] = letters.charCodeAt(index);
  const stream = new Blob([bytes]).stream().pipeThrough(new DecompressionStream("deflate"));
  return new Response(stream).arrayBuffer();
}

// The columns of a chunk, where they are there; else they are on their way. When all are that were asked for, all is
// drawn again.
function columns(chunk) {
  if (!chunk.open && !chunk.asked) {
    chunk.asked = true;
    waiting += 1;
    opened(chunk).then(() => { waiting -= 1; if (!waiting) redraw(); });
  }
  return chunk.open;
}

async function opened(chunk) {
  if (chunk.open) return chunk.open;
  const names = COLUMNS.filter((name) => name in chunk);
  const parts = await Promise.all(names.map((name) => unpacked(chunk[name])));
  const open = Object.fromEntries(names.map((name, index) => [name, parts[index]]));
  for (const name of ["begins", "first", "last", "times", "lines"]) if (open[name]) open[name] = sums(open[name]);
  for (const name of ["lengths", "values", "from", "to"]) {
    if (open[name]) open[name] = Float64Array.from(open[name], Number);
  }
  if (open.lengths) open.ends = open.lengths.map((length, index) => open.begins[index] + length);
  chunk.open = open;
  return open;
}

// Numbers that are told as steps from one to the next.
function sums(steps) {
  const numbers = new Float64Array(steps.length);
  let sum = 0;
  for (let index = 0; index < steps.length; index += 1) numbers[index] = sum += Number(steps[index]);
  return numbers;
}

const inView = (chunks) => chunks.filter((chunk) => chunk.end >= view.begin && chunk.begin <= view.end);

// About how many of these chunks' rows are in view.
const countInView = (chunks) => inView(chunks).reduce((sum, chunk) => sum + chunk.count * Math.min(1,
  (Math.min(chunk.end, view.end) - Math.max(chunk.begin, view.begin)) / Math.max(1, chunk.end - chunk.begin)), 0);
const countOf = (kinds) => data.lanes.reduce((sum, lane) => sum + countInView(kinds(lane).flat()), 0);

// ---- words

const grouped = (number) => number.toString().replace(/\B(?=(\d{3})+$)/g, " ");

function span(ns) {
  const size = Math.abs(ns);
  if (size >= 1e9) return (ns / 1e9).toFixed(3) + " s";
  if (size >= 1e6) return (ns / 1e6).toFixed(3) + " ms";
  if (size >= 1e3) return (ns / 1e3).toFixed(3) + " \u00b5s";
  return ns + " ns";
}

// A time of the recording, exactly.
function clock(ns) {
  const whole = BigInt(data.start) + BigInt(Math.round(ns));
  return (whole / 1000000000n) + "." + (whole % 1000000000n).toString().padStart(9, "0") + " s";
}

const called = (task) => (data.tasks[task].name + " " + data.tasks[task].pid).trim();
const lineOf = (line, other) => (line ? "line " + line : other);

const colours = new Map();

function colour(task, light) {
  if (found.size && !found.has(task)) return light ? "#eceff2" : "#d3d8de";
  const key = light ? -1 - task : task;
  if (!colours.has(key)) colours.set(key, `hsl(${Math.round(task * 137.508) % 360} ${light ? "55% 82%" : "60% 62%"})`);
  return colours.get(key);
}

// ---- where things are

// Measured once a drawing: each look at the canvas may have the page laid out again.
let measured = canvas.clientWidth - LEFT;
const width = () => measured;
const xOf = (time) => LEFT + (time - view.begin) / (view.end - view.begin) * width();
const timeOf = (x) => view.begin + (x - LEFT) / width() * (view.end - view.begin);
const rowHeight = () => (data.lanes.length > 8 ? 4 : ROW);
const charts = () => CHARTS.filter((chart) => chart.parts.some(([name]) => data.lanes.some(
  (lane) => lane.points[name].length)));

function places() {
  let top = 20;
  const lanes = data.lanes.map((lane) => {
    const place = { lane, top, rows: top + RUN + 2, bottom: top + RUN + 4 + Math.max(1, lane.rows) * rowHeight() };
    top = place.bottom + GAP;
    return place;
  });
  const below = [...charts(), { title: "virtual runtime above the floor, of who runs" }].map((chart) => {
    const place = { chart, top: top + 14, bottom: top + 14 + CHART };
    top = place.bottom + GAP;
    return place;
  });
  return { lanes, below, height: top };
}

// ---- drawing

function redraw() {
  if (asked) return;
  asked = true;
  requestAnimationFrame(() => { asked = false; draw(); });
}

function draw() {
  const spots = places(), ratio = window.devicePixelRatio || 1;
  measured = canvas.clientWidth - LEFT;
  canvas.style.height = spots.height + "px";
  const wide = Math.round(canvas.clientWidth * ratio), high = Math.round(spots.height * ratio);
  if (canvas.width !== wide || canvas.height !== high) [canvas.width, canvas.height] = [wide, high];
  pen.setTransform(ratio, 0, 0, ratio, 0, 0);
  pen.clearRect(0, 0, canvas.clientWidth, spots.height);
  pen.font = "11px system-ui, sans-serif";
  pen.textBaseline = "middle";
  drawn = [];
  near = data.few || countOf((lane) => [lane.runs, lane.waits]) <= MOST_NEAR;
  inside(() => drawGrid(spots.height));
  for (const place of spots.lanes) drawLane(place);
  for (const place of spots.below) place.chart.parts ? drawChart(place) : drawRuntimes(place);
  drawFault(spots.height);
  byId("range").textContent = `${clock(view.begin)} to ${clock(view.end)}, ${span(view.end - view.begin)}`;
  if (!waiting) markReady();
}

// Notes once when all that the page shows first is drawn.
function markReady() {
  if (!performance.getEntriesByName("ready").length) performance.mark("ready");
}

function inside(work) {
  pen.save();
  pen.beginPath();
  pen.rect(LEFT, 0, width(), canvas.height);
  pen.clip();
  work();
  pen.restore();
}

function drawGrid(height) {
  const rough = (view.end - view.begin) / 8, ten = 10 ** Math.floor(Math.log10(rough));
  const step = [1, 2, 5, 10].map((times) => times * ten).find((size) => size >= rough);
  pen.strokeStyle = "#eaeef2";
  pen.fillStyle = "#57606a";
  for (let time = Math.ceil(view.begin / step) * step; time <= view.end; time += step) {
    pen.beginPath();
    pen.moveTo(xOf(time), 14);
    pen.lineTo(xOf(time), height);
    pen.stroke();
    pen.fillText("+" + span(time), xOf(time) + 3, 8);
  }
}

function drawLane(place) {
  pen.fillStyle = "#1c2128";
  pen.fillText("cpu " + place.lane.cpu, 4, place.top + RUN / 2);
  pen.fillStyle = "#8c959f";
  if (place.lane.rows) pen.fillText("waiting", 4, place.rows + rowHeight());
  inside(() => {
    pen.fillStyle = "#f6f8fa";
    pen.fillRect(LEFT, place.top, width(), RUN);
    if (near) drawNear(place); else drawFar(place);
  });
}

function drawNear(place) {
  const { lane } = place;
  for (const chunk of inView(lane.runs)) {
    drawStretches(chunk, lane, "runs", false, () => [place.top, RUN]);
  }
  drawWaits(place, lane.waits);
}

function drawWaits(place, chunks) {
  const high = rowHeight();
  for (const chunk of inView(chunks)) {
    drawStretches(chunk, place.lane, "waits", true, (rows, index) => [place.rows + rows[index] * high, high - 1]);
  }
}

function drawStretches(chunk, lane, kind, light, spot) {
  const open = columns(chunk);
  if (!open) return;
  let drawnTo = [];
  for (let index = 0; index < chunk.count; index += 1) {
    if (open.ends[index] < view.begin || open.begins[index] > view.end) continue;
    const x = Math.max(LEFT, xOf(open.begins[index])), end = Math.min(xOf(open.ends[index]), LEFT + width());
    const [y, high] = spot(open.rows, index);
    const wide = Math.max(end - x, 0.6);
    // What would lie within a pixel that is drawn already is left out.
    if (x + wide < (drawnTo[y] ?? -1) + 0.5) continue;
    drawnTo[y] = x + wide;
    const task = open.tasks[index];
    pen.fillStyle = colour(task, light);
    pen.fillRect(x, y, wide, high);
    drawn.push({ x, y, wide, high, kind, lane, open, index });
    if (wide > 34 && high > 7) label(light ? called(task) + " " + span(open.ends[index] - open.begins[index])
      : called(task), x, y, wide, high);
  }
}

function label(text, x, y, wide, high) {
  pen.save();
  pen.beginPath();
  pen.rect(x, y, wide - 2, high);
  pen.clip();
  pen.fillStyle = "#1c2128";
  pen.font = high < 14 ? "8px system-ui, sans-serif" : "11px system-ui, sans-serif";
  pen.fillText(text, x + 3, y + high / 2 + 0.5);
  pen.restore();
}

// From afar each bucket has a bar of who ran longest, as high as somebody ran, and how many waited; the longest waits
// are drawn as they are.
function drawFar(place) {
  const { lane } = place, shown = (view.end - view.begin) / data.span;
  const most = MOST_BUCKETS * FEW_LANES / Math.max(FEW_LANES, data.lanes.length);
  const level = [...lane.levels].reverse().find((one) => one.buckets * shown <= most) || lane.levels[0];
  const open = columns(level);
  if (!open) return;
  const wide = data.span / level.buckets;
  const first = Math.max(0, Math.floor(view.begin / wide)), last = Math.min(level.buckets, view.end / wide + 1);
  const high = place.bottom - place.rows;
  const waits = Math.max(1, lane.rows, ...open.waiting.subarray(first, last));
  for (let bucket = first; bucket < last; bucket += 1) {
    const x = xOf(bucket * wide), size = xOf((bucket + 1) * wide) - x + 0.4;
    const share = open.busy[bucket] / 255 * RUN, below = open.waiting[bucket] / waits * high;
    if (share) {
      pen.fillStyle = colour(open.tasks[bucket], false);
      pen.fillRect(x, place.top + RUN - share, size, share);
      drawn.push({ x, y: place.top, wide: size, high: RUN, kind: "bucket", lane, open, index: bucket, level });
    }
    pen.fillStyle = "#dfe5ec";
    pen.fillRect(x, place.bottom - below, size, below);
  }
  drawWaits(place, lane.longest);
}

function drawFault(height) {
  if (!data.fault) return;
  inside(() => {
    const x = xOf(data.fault.time);
    pen.fillStyle = "#d1001f";
    pen.fillRect(x - 1, 0, 2, height);
    const text = `line ${data.fault.line} ${data.fault.kind}`, wide = pen.measureText(text).width + 8;
    const left = x + wide > LEFT + width() ? x - wide : x;
    pen.fillRect(left, 0, wide, 15);
    pen.fillStyle = "#fff";
    pen.fillText(text, left + 4, 8);
  });
}

// Whether the points of a measure in view are few enough to be drawn as they are.
const areNear = (name) => data.few || countOf((lane) => [lane.points[name]]) <= MOST_POINTS;

// The points of a measure that are in view: all, or from afar the greatest of each bucket.
function pointsOf(lane, name, all) {
  const chunks = inView(all ? lane.points[name] : lane.peaks[name]);
  return chunks.map((chunk) => [chunk, columns(chunk)]).filter(([, open]) => open);
}

function drawChart(place) {
  const { chart } = place, parts = [];
  let top = 0, bottom = 0;
  for (const [name, setting, sign] of chart.parts) {
    const all = areNear(name);
    for (const lane of data.lanes) {
      for (const [chunk, open] of pointsOf(lane, name, all)) {
        parts.push({ name, sign, lane, chunk, open });
        for (let index = 0; index < chunk.count; index += 1) {
          if (open.times[index] < view.begin || open.times[index] > view.end) continue;
          if (sign > 0) top = Math.max(top, open.values[index]); else bottom = Math.max(bottom, open.values[index]);
        }
      }
    }
    const bound = data.settings[setting];
    const most = sign > 0 ? top : bottom;
    // A bound far above all points would press them flat: then it is only named.
    const seen = bound <= 8 * most || most === 0 ? Math.max(most, bound) : most;
    if (sign > 0) top = seen; else bottom = seen;
  }
  const scale = (place.bottom - place.top) / Math.max(1, (top + bottom) * 1.06);
  const yOf = (value) => place.bottom - (value + bottom * 1.03) * scale;
  frame(place, chart.title, yOf(0));
  pen.fillStyle = "#57606a";
  if (top) pen.fillText(span(top), 4, yOf(top));
  if (bottom) pen.fillText("-" + span(bottom), 4, yOf(-bottom));
  inside(() => {
    for (const part of parts) drawPoints(part, yOf, chart.joined);
    for (const [, setting, sign] of chart.parts) {
      const bound = data.settings[setting];
      drawBound(place, setting, bound, yOf(sign * bound));
    }
  });
}

function frame(place, title, zero) {
  pen.fillStyle = "#1c2128";
  pen.fillText(title, LEFT + 2, place.top - 7);
  pen.strokeStyle = "#d0d7de";
  pen.strokeRect(LEFT + 0.5, place.top + 0.5, width() - 1, place.bottom - place.top);
  pen.beginPath();
  pen.moveTo(LEFT, zero);
  pen.lineTo(LEFT + width(), zero);
  pen.stroke();
}

function drawBound(place, setting, bound, y) {
  const text = `${setting} ${span(bound)}`;
  pen.fillStyle = "#b35900";
  pen.textAlign = "right";
  if (y >= place.top && y <= place.bottom) {
    pen.fillRect(LEFT, y, width(), 1);
    pen.fillText(text, LEFT + width() - 4, y > place.top + 14 ? y - 7 : y + 8);
  } else {
    pen.fillText(text + ", beyond the chart", LEFT + width() - 4, y < place.top ? place.top + 8 : place.bottom - 8);
  }
  pen.textAlign = "left";
}

function drawPoints({ name, sign, lane, chunk, open }, yOf, joined) {
  const before = new Map();
  for (let index = 0; index < chunk.count; index += 1) {
    const time = open.times[index], task = open.tasks[index];
    const x = xOf(time), y = yOf(sign * open.values[index]);
    if (joined) {
      if (before.has(task)) stroke(before.get(task), [x, y], colour(task, false));
      before.set(task, [x, y]);
    }
    if (time < view.begin || time > view.end) continue;
    pen.fillStyle = colour(task, false);
    const size = found.has(task) ? 4 : 3;
    pen.fillRect(x - size / 2, y - size / 2, size, size);
    drawn.push({ x: x - 3, y: y - 3, wide: 6, high: 6, kind: name, lane, open, index });
  }
}

function stroke([x, y], [toX, toY], style) {
  pen.strokeStyle = style;
  pen.lineWidth = 1.5;
  pen.beginPath();
  pen.moveTo(x, y);
  pen.lineTo(toX, toY);
  pen.stroke();
  pen.lineWidth = 1;
}

// How far above its processor's floor each stretch of running leads: near alone, for they are many.
function drawRuntimes(place) {
  const parts = [];
  let least = 0, most = 1;
  for (const lane of near ? data.lanes : []) {
    for (const chunk of inView(lane.runs)) {
      const open = columns(chunk);
      if (!open) continue;
      parts.push([chunk, open]);
      for (let index = 0; index < chunk.count; index += 1) {
        if (open.ends[index] < view.begin || open.begins[index] > view.end) continue;
        least = Math.min(least, open.from[index], open.to[index]);
        most = Math.max(most, open.from[index], open.to[index]);
      }
    }
  }
  const scale = (place.bottom - place.top - 6) / (most - least);
  const yOf = (value) => place.bottom - 3 - (value - least) * scale;
  frame(place, place.chart.title + (parts.length ? "" : " (zoom in to see it)"), yOf(0));
  pen.fillStyle = "#57606a";
  pen.fillText(span(most), 4, yOf(most) + 4);
  if (least < 0) pen.fillText(span(least), 4, yOf(least) - 4);
  inside(() => {
    for (const [chunk, open] of parts) {
      for (let index = 0; index < chunk.count; index += 1) {
        if (open.ends[index] < view.begin || open.begins[index] > view.end) continue;
        stroke([xOf(open.begins[index]), yOf(open.from[index])], [xOf(open.ends[index]), yOf(open.to[index])],
          colour(open.tasks[index], false));
      }
    }
  });
}

// ---- what is chosen

const MEASURED = { lead: "is picked, above the least that waits by", under: "wakes, below the floor by",
  over: "is born, above the floor by", idled: "nothing had run beside a waiting task for",
  drift: "its told charges stray from exact ones by" };

function telling({ kind, lane, open, index, level }) {
  if (kind === "bucket") {
    return `cpu ${lane.cpu}, a ${level.buckets}th of the picture: ${called(open.tasks[index])} ran longest; `
      + `somebody ran ${Math.round(open.busy[index] / 2.55)} % of it; at most ${open.waiting[index]} waited`;
  }
  const task = called(open.tasks[index]);
  if (kind !== "runs" && kind !== "waits") {
    return `${task} at cpu ${lane.cpu}, line ${open.lines[index]}, ${clock(open.times[index])}\n`
      + `${MEASURED[kind]} ${grouped(open.values[index])} ns (${span(open.values[index])})`;
  }
  const begin = open.begins[index], end = open.ends[index];
  const lines = `${task} ${kind} at cpu ${lane.cpu} for ${grouped(end - begin)} ns (${span(end - begin)})\n`
    + `from ${lineOf(open.first[index], "the start")}, ${clock(begin)}, `
    + `to ${lineOf(open.last[index], "the end")}, ${clock(end)}\n`;
  const before = BigInt(open.before[index]);
  if (kind === "waits") return `${lines}virtual runtime ${grouped(before)}`;
  const charge = BigInt(open.charges[index]);
  return `${lines}virtual runtime from ${grouped(before)} to ${grouped(before + charge)}, which is ${grouped(charge)}`;
}

// What lies at a place of the canvas, the last drawn first.
const hit = (x, y) => drawn.findLast((one) => x >= one.x - 1 && x <= one.x + one.wide + 1 && y >= one.y
  && y <= one.y + one.high);

function choose(one) {
  chosen = one || null;
  byId("details").textContent = chosen ? telling(chosen) : "Nothing is chosen.";
}

// ---- moving

function show(begin, end) {
  const size = Math.min(Math.max(end - begin, LEAST_SPAN), Math.max(1, data.span) * 1.02);
  const middle = (begin + end) / 2, margin = data.span * 0.01;
  view.begin = Math.max(-margin, Math.min(middle - size / 2, data.span + margin - size));
  view.end = view.begin + size;
  redraw();
}

// By a factor round a time that stays where it is.
function zoom(factor, time = (view.begin + view.end) / 2) {
  show(time - (time - view.begin) * factor, time + (view.end - time) * factor);
}

const move = (share) => {
  const step = (view.end - view.begin) * share;
  show(view.begin + step, view.end + step);
};

const whole = () => show(-data.span * 0.01, data.span * 1.01);

function toFault() {
  if (!data.fault) return;
  const half = Math.min(data.span, Math.max(2e6, data.span / 40)) / 2;
  show(data.fault.time - half, data.fault.time + half);
}

const KEYS = { "+": () => zoom(0.5), "=": () => zoom(0.5), "-": () => zoom(2), w: () => zoom(0.5), s: () => zoom(2),
  ArrowUp: () => zoom(0.5), ArrowDown: () => zoom(2), ArrowLeft: () => move(-0.2), ArrowRight: () => move(0.2),
  a: () => move(-0.2), d: () => move(0.2), 0: whole, f: toFault };

// ---- searching

// The tasks of this pid, or whose name has these letters; none where nothing is sought.
function matching(text) {
  const sought = text.trim().toLowerCase();
  if (!sought) return new Set();
  const isPid = /^\d+$/.test(sought) && data.tasks.some((task) => String(task.pid) === sought);
  return new Set([...data.tasks.keys()].filter((index) => (isPid ? String(data.tasks[index].pid) === sought
    : data.tasks[index].name.toLowerCase().includes(sought))));
}

function search(text) {
  found = matching(text);
  fillTable();
  redraw();
}

// Goes to the next stretch of who was found that begins behind the middle of the view; behind the last to the first.
async function next() {
  const middle = (view.begin + view.end) / 2;
  const best = await firstFound(middle + 1) || await firstFound(-1);
  if (!best) return;
  const half = Math.max((best.end - best.begin) * 2, (view.end - view.begin) / 2);
  show(best.begin - half, best.begin + half);
  byId("details").textContent = best.words;
}

async function firstFound(after) {
  let best = null;
  for (const lane of data.lanes) {
    for (const chunk of lane.runs.filter((one) => one.end >= after)) {
      const open = await opened(chunk);
      const index = open.tasks.findIndex((task, at) => found.has(task) && open.begins[at] >= after);
      if (index < 0) continue;
      if (!best || open.begins[index] < best.begin) {
        best = { begin: open.begins[index], end: open.ends[index],
          words: telling({ kind: "runs", lane, open, index }) };
      }
      break;
    }
  }
  return best;
}

// ---- the table

const HEADS = [["pid", "pid"], ["name", "name"], ["ran", "ran, ms"], ["charged", "charged, virtual ms"],
  ["picks", "picks"], ["waited", "waited, ms"], ["longest", "longest wait, ms"], ["lead", "greatest lead, virtual ms"]];
const order = { key: "ran", up: false };

function fillTable() {
  const sign = order.up ? 1 : -1;
  const compare = (one, other) => (one < other ? -sign : one > other ? sign : 0);
  const rows = [...data.tasks.keys()].filter((index) => !found.size || found.has(index))
    .sort((one, other) => compare(data.tasks[one][order.key], data.tasks[other][order.key]));
  const head = document.createElement("tr"), body = [];
  for (const [key, title] of HEADS) {
    const cell = document.createElement("th");
    cell.textContent = title;
    cell.className = key === order.key ? (order.up ? "by up" : "by") : "";
    cell.onclick = () => sortBy(key);
    head.append(cell);
  }
  for (const index of rows.slice(0, MOST_TASKS)) body.push(rowOf(index));
  byId("tasks").tHead.replaceChildren(head);
  byId("tasks").tBodies[0].replaceChildren(...body);
  byId("more").textContent = rows.length > MOST_TASKS ? `and ${rows.length - MOST_TASKS} more tasks` : "";
}

function rowOf(index) {
  const task = data.tasks[index], row = document.createElement("tr");
  for (const [key, title] of HEADS) {
    const cell = document.createElement("td");
    cell.textContent = title.endsWith("ms") ? (task[key] / 1e6).toFixed(6) : task[key];
    row.append(cell);
  }
  row.onclick = () => { byId("search").value = task.pid; search(String(task.pid)); };
  return row;
}

function sortBy(key) {
  order.up = order.key === key ? !order.up : key === "pid" || key === "name";
  order.key = key;
  fillTable();
}

// ---- the beginning

function begin() {
  byId("headline").textContent = data.report[0];
  byId("headline").className = data.fault ? "fault" : "";
  byId("why").textContent = data.report.slice(1).join("\n");
  byId("to-fault").hidden = !data.fault;
  canvas.addEventListener("wheel", (event) => {
    event.preventDefault();
    if (event.shiftKey) move(Math.sign(event.deltaY || event.deltaX) * 0.1);
    else zoom(event.deltaY > 0 ? 1.25 : 0.8, timeOf(event.offsetX));
  }, { passive: false });
  canvas.addEventListener("click", (event) => { canvas.focus(); choose(hit(event.offsetX, event.offsetY)); });
  canvas.addEventListener("keydown", (event) => {
    const act = KEYS[event.key] || KEYS[event.key.toLowerCase()];
    if (!act || event.ctrlKey || event.metaKey) return;
    event.preventDefault();
    act();
  });
  byId("search").addEventListener("input", (event) => search(event.target.value));
  byId("search").addEventListener("keydown", (event) => { if (event.key === "Enter") next(); });
  for (const [id, act] of [["next", next], ["to-fault", toFault], ["nearer", () => zoom(0.5)],
    ["farther", () => zoom(2)], ["whole", whole]]) byId(id).onclick = act;
  window.addEventListener("resize", redraw);
  fillTable();
  whole();
}

// For tests: what is seen, and whether all that it needs is there.
window.picture = { view, data, xOf, places, telling, drawn: () => drawn, found: () => found,
  isReady: () => waiting === 0 && !asked, draw };
begin();
