// The marks on the bands (reads, writes, instructions), the lanes above, and the legend.
const KINDS = ["read", "write", "refused", "execute"];
const hidden = new Set(); // kinds and worlds that are not drawn
let marks = 0;

// Draws a sign of a kind: hollow for the host and the bare bench, filled for an enclave.
function drawSign(pen, kind, isFilled, x, y) {
  pen.beginPath();
  if (kind === "execute") {
    if (isFilled) pen.fillRect(x - 1.5, y - 1.5, 3, 3); else pen.fillRect(x - 1.5, y - 0.75, 3, 1.5);
    return;
  }
  if (kind === "read") pen.arc(x, y, 3, 0, 7);
  if (kind === "read" && isFilled) { drawRing(pen, x, y); return; }
  if (kind === "write") pen.rect(x - 3, y - 3, 6, 6);
  if (kind === "refused") { pen.moveTo(x - 4, y - 4); pen.lineTo(x + 4, y + 4); pen.moveTo(x + 4, y - 4); pen.lineTo(x - 4, y + 4); }
  if (kind === "refused") pen.lineWidth = 2.2; else if (isFilled) pen.fill(); else { fillPaper(pen); pen.lineWidth = 1.4; }
  pen.stroke();
}

// Draws a load of an enclave: a thick ring. Its stores are filled squares.
function drawRing(pen, x, y) {
  fillPaper(pen);
  pen.lineWidth = 2.6;
  pen.stroke();
}

function fillPaper(pen) {
  const own = pen.fillStyle;
  pen.fillStyle = style("--paper");
  pen.fill();
  pen.fillStyle = own;
}

// A colour that contrasts with a band of the same colour; the colour itself if the browser cannot mix colours.
function darker(pen, colour) {
  pen.fillStyle = colour;
  pen.fillStyle = `color-mix(in srgb, ${colour} 45%, ${style("--ink")})`;
  return pen.fillStyle;
}

// Draws one sign for all points of a kind and a world within two pixels.
class Signs {
  constructor(pen) {
    this.pen = pen;
    this.taken = new Set();
    this.colours = new Map(worlds.map(it => [it, darker(pen, colourOf(it))]));
    this.refused = style("--refused");
  }

  add(kind, world, position, address) {
    if (hidden.has(kind) || hidden.has(world)) return;
    const x = xOf(position), y = yOf(address);
    const key = ((x >> 1) * 8192 + (y >> 1)) * 64 + KINDS.indexOf(kind) * 16 + slotOf(world) + 1;
    if (this.taken.has(key)) return;
    this.taken.add(key);
    this.pen.fillStyle = this.pen.strokeStyle = kind === "refused" ? this.refused : this.colours.get(world);
    drawSign(this.pen, kind, slotOf(world) >= 0, x, y);
  }
}

function drawPoints(pen) {
  const signs = new Signs(pen), first = Math.floor(view.from) + 1, last = Math.min(run.steps, Math.ceil(view.to));
  const lastAt = new Int32Array(data.sites.length).fill(-1), perStep = box.width / (view.to - view.from) / 2;
  for (let step = first; step <= last; step++) {
    const site = run.site[step - 1], at = Math.floor((step - view.from) * perStep) * 16 + run.place[step - 1] % 16;
    // Most steps coincide with an earlier mark.
    if (!run.trap[step - 1] && lastAt[site] === at) continue;
    lastAt[site] = at;
    const trap = trapOf(step), isRefused = trap && trap.cause === "00000001" && trap.value === data.sites[site].pc;
    if (!isInterrupt(trap)) signs.add(isRefused ? "refused" : "execute", placeOf(step).world, step - 0.5, pcs[site]);
  }
  drawTouches(signs, first, last);
  marks = signs.taken.size;
}

function drawTouches(signs, first, last) {
  for (let at = lastAtMost(run.touch.step, first - 1) + 1; at < run.touch.step.length && run.touch.step[at] <= last; at++) {
    const step = run.touch.step[at], kind = run.touch.kind[at];
    signs.add(isRefused(kind) ? "refused" : isWritten(kind) ? "write" : "read", placeOf(step).world, step - 0.5, run.touch.address[at]);
  }
}

// Draws signs in a lane, each with its text above if there is room.
function drawLane(pen, lane, marked, drawOne) {
  let free = 0, last = -Infinity;
  marked.filter(it => it.position >= view.from && it.position <= view.to).forEach(({ position, text, world }) => {
    const x = xOf(position), width = pen.measureText(text).width, start = Math.min(x - 4, box.left + box.width + EDGE - width);
    if (x - last >= 1) drawOne(pen, x, lane.top + lane.height - 7, world);
    last = Math.max(last, x);
    if (start < free) return;
    pen.fillStyle = style("--ink");
    pen.fillText(text, start, lane.top + 11);
    free = start + width + 8;
  });
}

function triangle(pen, x, y, call) {
  pen.fillStyle = call.refused ? style("--refused") : colourOf(call.to);
  pen.beginPath();
  pen.moveTo(x - 5, y - 4);
  pen.lineTo(x + 5, y - 4);
  pen.lineTo(x, y + 5);
  pen.fill();
}

function crossed(pen, x, y) {
  pen.strokeStyle = style("--refused");
  drawSign(pen, "refused", false, x, y);
}

function hollow(pen, x, y) {
  pen.strokeStyle = style("--ink");
  pen.lineWidth = 1.4;
  pen.beginPath();
  [[-5, -4], [5, -4], [0, 5]].forEach(([right, down]) => pen.lineTo(x + right, y + down));
  pen.closePath();
  pen.stroke();
}

function diamond(pen, x, y) {
  pen.fillStyle = style("--ink");
  pen.beginPath();
  [[0, -5], [5, 0], [0, 5], [-5, 0]].forEach(([left, down]) => pen.lineTo(x + left, y + down));
  pen.fill();
}

function flag(pen, x, y) {
  pen.fillStyle = style("--quiet");
  pen.fillRect(x - 0.5, y - 6, 1, 12);
  pen.fillRect(x, y - 6, 6, 5);
}

const callName = call => call.name + (call.slot === null ? "" : " e" + call.slot) + (call.refused ? " " + call.refused : "");

function drawLanes(pen) {
  pen.font = "11px system-ui, sans-serif";
  lanes.forEach(lane => {
    pen.fillStyle = style("--quiet");
    pen.fillText(lane.name, 0, lane.top + lane.height - 5);
    if (lane.name === "script")
      drawLane(pen, lane, data.commands.map(it => ({ position: it.step, text: it.line })), flag);
    if (lane.name === "console")
      drawLane(pen, lane, data.consoles.map(it => ({ position: it.step, text: it.text })), flag);
    if (lane.name === "calls")
      drawLane(pen, lane, data.calls.map(it => ({ position: it.step - 0.5, text: callName(it), world: it })), triangle);
    if (lane.name === "traps") drawTraps(pen, lane);
    if (lane.hart !== undefined) drawRuns(pen, lane);
  });
}

function drawTraps(pen, lane) {
  const marked = faults.map(step => ({ position: step - 0.5, trap: trapOf(step) })).map(it => ({ ...it, text: trapText(it.trap) }));
  drawLane(pen, lane, marked.map(it => ({ ...it, world: it.trap })), (brush, x, y, trap) => signOf(trap)(brush, x, y));
}

const ECALL_FROM_U = "00000008";
const signOf = trap => isInterrupt(trap) ? diamond : trap.cause === ECALL_FROM_U ? hollow : crossed;

const trapText = trap => isInterrupt(trap) ? "timer" : trap.name;

// The stretches of steps of a hart in one world and mode.
function stretchesOf(hart) {
  const found = [];
  for (let step = 1; step <= run.steps; step++) {
    const place = run.place[step - 1], last = found[found.length - 1];
    if (data.places[place].hart !== hart) continue;
    if (last && last.place === place && last.to === step - 1) last.to = step;
    else found.push({ place, from: step - 1, to: step });
  }
  return found;
}

const stretches = Array.from({ length: hartCount }, (_, hart) => stretchesOf(hart));

function drawRuns(pen, lane) {
  let last = "", free = 0;
  stretches[lane.hart].forEach(({ place, from, to }) => {
    if (to < view.from || from > view.to) return;
    const { world, mode } = data.places[place], x = Math.max(box.left, xOf(from)), end = Math.min(box.left + box.width, xOf(to));
    fillBand(pen, lookOf(pen, [world]), true, x, lane.top + 2, Math.max(0.7, end - x), lane.height - 6);
    pen.fillStyle = colourOf(world);
    pen.fillRect(x, lane.top + lane.height - (mode === "U" ? 9 : 4), Math.max(0.7, end - x), mode === "U" ? 9 : 2);
    const text = world + " " + mode, width = pen.measureText(text).width;
    if (text !== last && end - x > width + 6 && x >= free) {
      outlined(pen, text, x + 3, lane.top + lane.height - 8);
      free = x + width;
      last = text;
    }
  });
}

function legendItem(text, draw, isSign) {
  const item = document.createElement("span"), canvas = document.createElement("canvas"), [width, height] = isSign ? [14, 14] : [22, 14];
  const ratio = window.devicePixelRatio || 1, pen = canvas.getContext("2d");
  canvas.width = width * ratio;
  canvas.height = height * ratio;
  canvas.className = isSign ? "sign" : "";
  pen.scale(ratio, ratio);
  draw(pen, width, height);
  item.append(canvas, text);
  return item;
}

function drawLegend() {
  const legend = document.getElementById("legend"), sets = new Map([["", []], ...worlds.map(it => [it, [it]])]);
  data.events.forEach(it => it.rows.forEach(row => { const who = whoOf(it, row).worlds; sets.set(who.join("+"), who); }));
  const bands = [...sets].map(([name, who]) =>
    legendItem(name || "nobody", (pen, width, height) => fillBand(pen, lookOf(pen, who), true, 0, 0, width, height), false));
  const sign = (kind, isFilled) => (pen, width, height) => {
    pen.fillStyle = pen.strokeStyle = style(kind === "refused" ? "--refused" : "--ink");
    drawSign(pen, kind, isFilled, width / 2, height / 2);
  };
  const hasSlots = worlds.some(it => slotOf(it) >= 0);
  const kinds = ["read", "write", "execute"].map(kind => legendItem(kind, sign(kind, false), true));
  const filled = hasSlots ? ["read", "write", "execute"].map(kind => legendItem(kind + " by an enclave", sign(kind, true), true)) : [];
  const traps = faults.map(trapOf), has = (isOne, item) => traps.some(isOne) ? [item] : [];
  const rest = [
    ...has(it => signOf(it) === crossed, legendItem("refused access or other fault", sign("refused", false), true)),
    ...has(it => signOf(it) === hollow, legendItem("ecall from U", pen => hollow(pen, 7, 7), true)),
    ...has(isInterrupt, legendItem("timer", pen => diamond(pen, 7, 7), true)),
  ];
  legend.replaceChildren(...bands, ...kinds, ...filled, ...rest);
}
