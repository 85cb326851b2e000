// The picture: positions of steps and addresses, the bands of memory, and the axes.
const chart = document.getElementById("chart"), drawing = document.getElementById("drawing"), cursor = document.getElementById("cursor");
const SHUT = 5, LEAST = 15, OUTSIDE = 28, AXIS = 20, EDGE = 10, NARROW = 600;
// The visible part of the run: steps, and the part of the memory from its top to its bottom.
const view = { from: 0, to: Math.max(1, run.steps), top: 0, bottom: 1 };
const lanes = [
  ...[[data.commands, "script"], [data.consoles, "console"], [data.calls, "calls"], [faults, "traps"]].filter(([signs]) => signs.length)
    .map(([, name]) => ({ name, height: 28 })),
  ...Array.from({ length: hartCount }, (_, hart) => ({ name: hartCount > 1 ? "hart " + hart : "runs", hart, height: 20 })),
];
const segments = data.segments.map(it => ({ ...it, low: parseInt(it.first, 16), high: parseInt(it.last, 16) }));
let box = null;

// The colours are read once per drawing, since the colour scheme may change.
let palette = {};
const style = name => palette[name] ??= getComputedStyle(document.documentElement).getPropertyValue(name).trim();
const slotOf = world => world.startsWith("e") ? Number(world.slice(1)) : -1;
const colourOf = world => style(slotOf(world) >= 0 ? "--e" + slotOf(world) % 7 : "--host");
const xOf = position => box.left + (position - view.from) / (view.to - view.from) * box.width;
const stepAt = x => Math.min(run.steps, Math.max(0, Math.ceil(view.from + (x - box.left) / box.width * (view.to - view.from))));

function yOf(address) {
  const it = segments[lastAtMost(segments, address, segment => segment.low)];
  return it.bottom - (address - it.low + 0.5) / (it.high - it.low + 1) * (it.bottom - it.top);
}

// The name of a range of the map, at the first event that gives it one.
function nameOfRange(first) {
  if (segments.some(it => it.outside && it.low === first)) return "no memory";
  const names = data.events.map(it => rowAt(it, first).what).filter(it => it);
  return names[0] || (data.run.monitor ? "host" : "RAM");
}

function rowAt(event, address) {
  return event.rows[lastAtMost(event.rows, address, row => parseInt(row.first, 16))];
}

const wholes = [...new Set(segments.map(it => it.range))].map(range => {
  const own = segments.filter(it => it.range === range);
  const name = nameOfRange(parseInt(range, 16));
  return { range, name, own, isHost: ["host", "RAM"].includes(name) };
});
// A range that has a name is drawn even if nothing in it was accessed.
wholes.filter(it => !it.isHost && !it.own.some(segment => segment.open)).forEach(it => { it.own[0].named = true; });

// Computes the layout for the present width.
function measure() {
  const width = chart.clientWidth, isNarrow = width < NARROW, gutter = isNarrow ? 66 : 200;
  const top = lanes.reduce((sum, lane) => { lane.top = sum; return sum + lane.height; }, 0) + 4;
  const room = isNarrow ? 400 : Math.max(300, Math.min(760, window.innerHeight - top - 400));
  const weight = it => it.open && !it.outside ? 14 + 11 * Math.log2(1 + (it.high - it.low + 1) / 32) : 0;
  const fixedOf = it => it.outside ? OUTSIDE : it.named ? LEAST : SHUT;
  const fixed = segments.reduce((sum, it) => sum + (weight(it) ? 0 : fixedOf(it)), 0);
  const scale = (room - fixed) / segments.reduce((sum, it) => sum + weight(it), Number.EPSILON);
  let bottom = top;
  [...segments].reverse().forEach(it => {
    it.top = bottom;
    it.bottom = bottom += weight(it) ? Math.max(LEAST, weight(it) * scale) : fixedOf(it);
  });
  const height = bottom - top, seen = y => top + ((y - top) / height - view.top) / (view.bottom - view.top) * height;
  segments.forEach(it => { it.top = seen(it.top); it.bottom = seen(it.bottom); });
  box = { left: gutter, width: width - gutter - EDGE, top, bottom, height: bottom + AXIS, full: width, isNarrow };
}

// Draws clipped to the memory area.
function within(pen, draw) {
  pen.save();
  pen.beginPath();
  pen.rect(0, box.top - 1, box.full, box.bottom - box.top + 2);
  pen.clip();
  draw();
  pen.restore();
}

// The address at a height of the picture, or null outside memory.
function addressAt(y) {
  const it = segments.find(segment => y >= segment.top && y < segment.bottom);
  return it ? it.low + Math.floor((it.bottom - y) / (it.bottom - it.top) * (it.high - it.low + 1)) : null;
}

function sized(canvas) {
  const ratio = window.devicePixelRatio || 1;
  canvas.width = Math.round(box.full * ratio);
  canvas.height = Math.round(box.height * ratio);
  canvas.style.height = box.height + "px";
  const pen = canvas.getContext("2d");
  pen.scale(ratio, ratio);
  return pen;
}

const HATCHES = { nobody: [[0, 0, 6, 6], [6, 0, 0, 6]], shared: [[0, 3, 6, 3]], slots: [[[0, 6, 6, 0]], [[0, 0, 6, 6]], [[3, 0, 3, 6]]] };

// A pattern of lines, which is distinguishable without its colour.
function hatch(pen, lines, colour) {
  const tile = document.createElement("canvas");
  tile.width = tile.height = 6;
  const brush = tile.getContext("2d");
  brush.strokeStyle = colour;
  lines.forEach(([x, y, toX, toY]) => { brush.beginPath(); brush.moveTo(x, y); brush.lineTo(toX, toY); brush.stroke(); });
  return pen.createPattern(tile, "repeat");
}

// The colour and pattern of a set of worlds.
function lookOf(pen, names) {
  if (!names.length) return { colour: style("--nobody"), lines: hatch(pen, HATCHES.nobody, style("--nobody")) };
  const colour = names.length > 1 ? style("--shared") : colourOf(names[0]);
  const slot = slotOf(names[0]);
  const lines = names.length > 1 ? HATCHES.shared : slot >= 0 ? HATCHES.slots[slot % 3] : null;
  return { colour, lines: lines && hatch(pen, lines, colour) };
}

function fillBand(pen, look, isRunning, x, y, width, height) {
  pen.globalAlpha = isRunning ? 0.36 : 0.12;
  pen.fillStyle = look.colour;
  pen.fillRect(x, y, width, height);
  if (look.lines) {
    pen.globalAlpha = isRunning ? 0.5 : 0.25;
    pen.fillStyle = look.lines;
    pen.fillRect(x, y, width, height);
  }
  pen.globalAlpha = 1;
}

const looks = new Map();

// Draws the band of a segment from one event to the next.
function drawBand(pen, event, segment, x, end) {
  if (segment.outside) return;
  const row = rowAt(event, segment.low), who = whoOf(event, row), key = who.worlds.join("+");
  if (!looks.has(key)) looks.set(key, lookOf(pen, who.worlds));
  const look = looks.get(key), height = segment.bottom - segment.top;
  fillBand(pen, look, isOpen(event, row, who), x, segment.top, end - x, height);
  const text = rightsText(event, row);
  if (height >= 13 && end - x > pen.measureText(text).width + 8) outlined(pen, text, x + 4, segment.top + 10);
}

function outlined(pen, text, x, y) {
  pen.lineWidth = 3;
  pen.strokeStyle = style("--paper");
  pen.globalAlpha = 0.75;
  pen.strokeText(text, x, y);
  pen.globalAlpha = 1;
  pen.fillStyle = style("--ink");
  pen.fillText(text, x, y);
}

// The visible events with their horizontal extent; of several within half a pixel only the last.
function shownEvents() {
  const spans = data.events.map((it, at) => ({ it, from: it.step, to: data.events[at + 1]?.step ?? Math.max(run.steps, 1) }));
  const seen = spans.filter(it => it.to > view.from && it.from < view.to && (it.to > it.from));
  return seen.map(({ it, from, to }) => ({ it, x: Math.max(box.left, xOf(from)), end: Math.min(box.left + box.width, xOf(to)) }))
    .filter((span, at, all) => span.end - span.x > 0.5 || at % Math.ceil(all.length / box.width) === 0);
}

function drawBands(pen) {
  looks.clear();
  pen.font = "10px " + style("--mono");
  const spans = shownEvents();
  spans.forEach(({ it, x, end }) => segments.forEach(segment => drawBand(pen, it, segment, x, end)));
  pen.fillStyle = style("--ink");
  pen.globalAlpha = 0.55;
  spans.filter(span => span.it.step).forEach(({ x }) => pen.fillRect(x - 0.5, box.top, 1, box.bottom - box.top));
  pen.globalAlpha = 1;
  wholes.forEach(it => pen.fillRect(box.left - 4, it.own[0].bottom - 0.5, box.width + 4, 1));
  pen.fillRect(box.left - 4, box.top - 0.5, box.width + 4, 1);
}

// Draws the names of ranges and, in a wide picture, of the accessed symbols, as far as there is room.
function drawGutter(pen) {
  wholes.forEach(it => {
    const top = it.own[it.own.length - 1].top, bottom = it.own[0].bottom;
    if (bottom - top < 12) return;
    pen.fillStyle = style("--ink");
    pen.font = (box.isNarrow ? "bold 10px " : "bold 12px ") + "system-ui, sans-serif";
    const name = box.isNarrow ? it.name.replace(" of ", " ").replace("window", "win") : it.name;
    pen.fillText(name, 0, Math.min((top + bottom) / 2 + 4, bottom - 2));
    pen.fillStyle = style("--quiet");
    pen.font = "10px " + style("--mono");
    if (bottom - top >= 34) pen.fillText(it.range, 0, Math.min((top + bottom) / 2 + 17, bottom - 2));
  });
  if (!box.isNarrow) drawNames(pen);
}

function drawNames(pen) {
  pen.font = "10px " + style("--mono");
  pen.fillStyle = style("--quiet");
  pen.textAlign = "right";
  let free = Infinity;
  segments.flatMap(it => it.labels).forEach(({ address, name }) => {
    const y = yOf(parseInt(address, 16)) + 3;
    if (free - y < 10) return;
    pen.fillText(name.length > 17 ? name.slice(0, 16) + "…" : name, box.left - 8, y);
    pen.fillRect(box.left - 5, y - 3.5, 4, 1);
    free = y;
  });
  pen.textAlign = "left";
}

function drawStepAxis(pen) {
  const span = view.to - view.from, least = span / Math.max(2, box.width / 80), power = 10 ** Math.floor(Math.log10(least));
  const gap = Math.max(1, [1, 2, 5, 10].find(it => it * power >= least) * power);
  pen.fillStyle = style("--quiet");
  pen.font = "11px " + style("--mono");
  pen.textAlign = "center";
  for (let step = Math.ceil(view.from / gap) * gap; step <= view.to; step += gap) {
    pen.fillRect(xOf(step) - 0.5, box.bottom, 1, 4);
    const text = step.toLocaleString("en"), half = pen.measureText(text).width / 2;
    pen.fillText(text, Math.min(xOf(step), box.left + box.width + EDGE - half), box.bottom + 15);
  }
  pen.textAlign = "left";
  pen.fillText("step", 0, box.bottom + 15);
}
