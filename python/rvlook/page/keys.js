// Navigation by keys, buttons and the picture.
let current = 0;
const LEAST_SPAN = 8, LEAST_PART = 1 / 1024, ZOOM = 2, MOVED = 0.2, DRAGGED = 4;
const number = document.getElementById("number");

function draw() {
  palette = {};
  measure();
  const pen = sized(drawing);
  within(pen, () => { drawBands(pen); drawGutter(pen); drawPoints(pen); });
  drawStepAxis(pen);
  drawLanes(pen);
  drawLegend();
  drawCursor();
  const points = data.points.toLocaleString("en"), rows = data.rows.toLocaleString("en");
  put("counts", `${data.events.length} events, ${rows} rows, ${run.steps.toLocaleString("en")} steps, ${points} points` +
    (marks < data.points ? `, drawn as ${marks.toLocaleString("en")} marks` : ""));
}

// Draws the current step: a line, and rings around its fetch, load and store.
function drawCursor() {
  const pen = sized(cursor), x = xOf(Math.max(0, current - 0.5));
  if (x < box.left - 1 || x > box.left + box.width + 1) return;
  pen.fillStyle = pen.strokeStyle = style("--ink");
  pen.globalAlpha = 0.8;
  pen.fillRect(x - 0.5, 0, 1, box.bottom + 4);
  pen.lineWidth = 2;
  within(pen, () => touchedAt(current).forEach(address => { pen.beginPath(); pen.arc(x, yOf(address), 7, 0, 7); pen.stroke(); }));
}

// Stores the current step in the URL fragment, after a short delay.
let keeping = 0;
function keepStep() {
  clearTimeout(keeping);
  keeping = setTimeout(() => history.replaceState(null, "", "#" + current), 150);
}

function show(step) {
  current = Math.min(run.steps, Math.max(0, step));
  const span = view.to - view.from;
  if (Math.max(0, current - 1) < view.from || current > view.to) { look(Math.max(0, current - span / 2), span); return; }
  number.value = current;
  chart.setAttribute("aria-valuenow", current);
  chart.setAttribute("aria-valuetext", current ? `step ${current}, ${siteOf(current).abi || ""}` : "reset");
  drawCursor();
  showWhere(current);
  showSteps(current);
  showMap(current);
  showRegisters(current);
  showSource(current);
  showStack(current);
  keepStep();
}

// Shows `span` steps from `from` on.
function look(from, span) {
  const whole = Math.max(1, run.steps), width = Math.min(whole, Math.max(Math.min(LEAST_SPAN, whole), span));
  view.from = Math.min(Math.max(0, from), whole - width);
  view.to = view.from + width;
  draw();
  show(current);
}

function zoom(factor, around = current) {
  const span = (view.to - view.from) / factor;
  look(around - (around - view.from) / factor, span);
}

// Shows a part of the memory; its top and height are fractions of the whole.
function lookAlong(top, height) {
  const part = Math.min(1, Math.max(LEAST_PART, height));
  view.top = Math.min(Math.max(0, top), 1 - part);
  view.bottom = view.top + part;
  draw();
}

// Zooms in on the memory around a height of the picture, by default that of the last access of the step.
function zoomAlong(factor, y = heightOf(current)) {
  const part = (y - box.top) / (box.bottom - box.top), height = (view.bottom - view.top) / factor;
  lookAlong(view.top + part * (view.bottom - view.top) - part * height, height);
}

const heightOf = step => Math.min(box.bottom, Math.max(box.top, step ? yOf(touchedAt(step).pop()) : (box.top + box.bottom) / 2));
const moveAlong = part => lookAlong(view.top + part * (view.bottom - view.top), view.bottom - view.top);

function whole() {
  view.top = 0;
  view.bottom = 1;
  look(0, run.steps);
}

const nextOf = (steps, fallback) => steps[lastAtMost(steps, current) + 1] ?? fallback;
const previousOf = (steps, fallback) => steps[lastAtMost(steps, current - 1)] ?? fallback;
const changes = data.events.map(it => it.step), called = data.calls.map(it => it.step);

const actions = {
  previousStep: () => show(current - 1), nextStep: () => show(current + 1), previousTen: () => show(current - 10),
  nextTen: () => show(current + 10), first: () => show(0), last: () => show(run.steps),
  previousEvent: () => show(previousOf(changes, 0)), nextEvent: () => show(nextOf(changes, current)),
  previousTrap: () => show(previousOf(faults, current)), nextTrap: () => show(nextOf(faults, current)),
  previousCall: () => show(previousOf(called, current)), nextCall: () => show(nextOf(called, current)),
  closer: () => zoom(ZOOM), farther: () => zoom(1 / ZOOM), taller: () => zoomAlong(ZOOM), flatter: () => zoomAlong(1 / ZOOM),
  up: () => moveAlong(-MOVED), down: () => moveAlong(MOVED), whole, find: () => document.getElementById("find").focus(),
  help: () => { const help = document.getElementById("help"); help.hidden = !help.hidden; },
};
const keys = {
  ArrowLeft: "previousStep", ArrowRight: "nextStep", Home: "first", End: "last", n: "nextEvent", p: "previousEvent", t: "nextTrap",
  T: "previousTrap", c: "nextCall", C: "previousCall", "+": "closer", "=": "closer", "-": "farther", 0: "whole", "?": "help",
  v: "taller", V: "flatter", ArrowUp: "up", ArrowDown: "down", "/": "find",
};

document.addEventListener("keydown", event => {
  if (event.target.tagName === "INPUT" || event.ctrlKey || event.metaKey || event.altKey) return;
  const name = keys[event.key];
  if (!name) return;
  event.preventDefault();
  const isTen = event.shiftKey && name.endsWith("Step");
  actions[isTen ? name.replace("Step", "Ten") : name]();
});
document.querySelectorAll("[data-do]").forEach(it => it.addEventListener("click", () => actions[it.dataset.do]()));
number.addEventListener("change", () => show(Number(number.value)));

const inChart = event => ({ x: event.clientX - chart.getBoundingClientRect().left, y: event.clientY - chart.getBoundingClientRect().top });
let held = null;

// A drag scrolls the picture; a click or a tap selects the step there.
chart.addEventListener("pointerdown", event => {
  chart.setPointerCapture(event.pointerId);
  held = { ...inChart(event), view: { ...view }, isDragged: false };
});
chart.addEventListener("pointermove", event => {
  const { x, y } = inChart(event);
  if (!held) { showHover(x, y); return; }
  held.isDragged ||= Math.abs(x - held.x) > DRAGGED || Math.abs(y - held.y) > DRAGGED;
  if (held.isDragged) soon(() => drag(x - held.x, y - held.y));
});
chart.addEventListener("pointerup", event => {
  if (held && !held.isDragged) show(stepAt(inChart(event).x));
  held = null;
});
chart.addEventListener("pointercancel", () => { held = null; });
chart.addEventListener("pointerleave", hideHover);

function drag(right, down) {
  if (!held) return;
  const was = held.view, span = was.to - was.from, part = was.bottom - was.top;
  hideHover();
  view.from = Math.min(Math.max(0, was.from - right / box.width * span), Math.max(1, run.steps) - span);
  view.to = view.from + span;
  lookAlong(was.top - down / (box.bottom - box.top) * part, part);
}

chart.addEventListener("wheel", event => {
  if (!event.ctrlKey) return;
  event.preventDefault();
  const factor = (event.deltaY || event.deltaX) < 0 ? ZOOM : 1 / ZOOM, { x, y } = inChart(event);
  if (event.shiftKey) zoomAlong(factor, Math.min(box.bottom, Math.max(box.top, y)));
  else zoom(factor, stepAt(x));
}, { passive: false });

// Draws once per frame.
function soon(act) {
  cancelAnimationFrame(pending);
  pending = requestAnimationFrame(act);
}

let pending = 0;
window.addEventListener("resize", () => soon(draw));
window.matchMedia("(prefers-color-scheme: dark)").addEventListener("change", draw);
window.addEventListener("hashchange", () => show(Number(location.hash.slice(1)) || 0));

// The functions and values for scripts.
Object.assign(window, { show, run, view, look, zoomAlong });

chart.setAttribute("aria-valuemax", run.steps);
number.max = run.steps;
showAbout();
showFilters();
draw();
show(Number(location.hash.slice(1)) || data.events[1]?.step || 0);
