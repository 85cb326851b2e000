// The data of the page: the packed columns as arrays, and queries on them.
const LAST_REGISTER = 31;

// Unpacks the data that python/rvlook/page/data.py packs: an object, then the columns.
async function unpacked() {
  const source = document.getElementById("data"), text = source.textContent;
  source.remove();
  const packed = (await fetch("data:application/octet-stream;base64," + text)).body;
  const bytes = await new Response(packed.pipeThrough(new DecompressionStream("deflate"))).arrayBuffer();
  const length = new DataView(bytes).getUint32(0, true);
  return [JSON.parse(new TextDecoder().decode(new Uint8Array(bytes, 4, length))), bytes, 4 + length];
}

const [data, packedBytes, firstColumn] = await unpacked();

data.events.forEach(event => Object.assign(event, data.maps[event.map]));

// A column as an array of numbers of its width.
function columnOf({ width, at, count }) {
  return new { 1: Uint8Array, 2: Uint16Array, 4: Uint32Array }[width](packedBytes, firstColumn + at, count);
}

const COLUMNS = ["site", "place", "trap", "changes", "registers", "values"];
const TOUCH_COLUMNS = ["step", "address", "width", "kind", "name", "value"];
const columnsOf = (of, names) => Object.fromEntries(names.map(name => [name, columnOf(of[name])]));
const run = { steps: data.steps, ...columnsOf(data, COLUMNS), touch: columnsOf(data.touch, TOUCH_COLUMNS) };
const ABI = "zero ra sp gp tp t0 t1 t2 s0 s1 a0 a1 a2 a3 a4 a5 a6 a7 s2 s3 s4 s5 s6 s7 s8 s9 s10 s11 t3 t4 t5 t6".split(" ");
// The index of the first change of each step.
run.start = new Uint32Array(run.steps + 1);
run.changes.forEach((count, at) => { run.start[at + 1] = run.start[at] + count; });

// The registers that a step changed, as pairs of a number and a value.
function changesOf(step) {
  const from = run.start[step - 1], to = run.start[step];
  return Array.from(run.registers.subarray(from, to), (number, at) => [number, run.values[from + at]]);
}

const isWritten = kind => (kind & 1) === 1, isRefused = kind => (kind & 2) === 2, hasValue = kind => (kind & 4) === 0;
const hex8 = number => (number >>> 0).toString(16).padStart(8, "0");
const pcs = Uint32Array.from(data.sites, site => parseInt(site.pc, 16));

// The index of the last element of a sorted array that is at most the wanted one, or -1.
function lastAtMost(array, wanted, keyOf = it => it) {
  let low = 0, high = array.length;
  while (low < high) {
    const middle = (low + high) >> 1;
    if (keyOf(array[middle]) <= wanted) low = middle + 1; else high = middle;
  }
  return low - 1;
}

const eventAt = step => Math.max(0, lastAtMost(data.events, step, it => it.step));
const siteOf = step => data.sites[run.site[step - 1]];
const placeOf = step => data.places[run.place[step - 1]];
const trapOf = step => run.trap[step - 1] ? data.traps[run.trap[step - 1] - 1] : null;
const isInterrupt = trap => trap !== null && trap.cause.startsWith("8");
const callAt = new Map(data.calls.map(call => [call.step, call]));

function touchOf(step) {
  const at = lastAtMost(run.touch.step, step);
  if (at < 0 || run.touch.step[at] !== step) return null;
  const kind = run.touch.kind[at], width = run.touch.width[at];
  const value = hasValue(kind) ? run.touch.value[at].toString(16).padStart(2 * width, "0") : null;
  return { address: run.touch.address[at], width, kind, value, symbol: data.names[run.touch.name[at]] };
}

// The steps with a trap other than a monitor call, in order.
const faults = [];
run.trap.forEach((trap, at) => { if (trap && !callAt.has(at + 1)) faults.push(at + 1); });

// The registers that setreg lines of the script write, by the step after which they run.
const puts = data.commands.filter(it => it.line.startsWith("setreg") && it.replies[0] === "ok").map(it => {
  const [, number, value] = it.line.trim().split(/\s+/);
  return { step: it.step, hart: it.hart, number: Number(number), value: parseInt(value, 16) };
});

// The registers of a hart at regular steps, with the number of setreg lines so far.
const INTERVAL = 4096, kept = new Map();

function registersFrom(hart) {
  const values = new Uint32Array(LAST_REGISTER + 1), all = [];
  values[10] = hart;
  let next = 0;
  for (let step = 0; step <= run.steps; step++) {
    if (step % INTERVAL === 0) all.push({ values: values.slice(), next });
    if (step < run.steps) next = goOn(values, next, step + 1, hart);
  }
  return all;
}

// Applies the setreg lines before a step, and the changes of the step.
function goOn(values, next, step, hart) {
  next = putLines(values, next, step - 1, hart);
  if (data.places[run.place[step - 1]].hart === hart)
    for (let at = run.start[step - 1]; at < run.start[step]; at++) values[run.registers[at]] = run.values[at];
  return next;
}

function putLines(values, next, last, hart) {
  for (; next < puts.length && puts[next].step <= last; next++)
    if (puts[next].hart === hart && puts[next].number) values[puts[next].number] = puts[next].value;
  return next;
}

// The registers of a hart after a step.
function registersAfter(step, hart) {
  if (!kept.has(hart)) kept.set(hart, registersFrom(hart));
  const start = Math.floor(step / INTERVAL), from = kept.get(hart)[start], values = from.values.slice();
  let next = from.next;
  for (let at = start * INTERVAL + 1; at <= step; at++) next = goOn(values, next, at, hart);
  putLines(values, next, step, hart);
  return values;
}

const worlds = [...new Set(data.events.flatMap(it => it.columns.map(column => column.world)))].sort((one, other) =>
  (one === "host" ? -1 : other === "host" ? 1 : one.localeCompare(other, "en", { numeric: true })));
const hartCount = data.run.harts;

// The worlds that can access a row of the map after an event, and which of them are running.
function whoOf(event, row) {
  const may = event.columns.filter(column => Object.values(row.may[column.name]).some(it => it !== "---"));
  const running = new Set(may.filter(it => !it.derived).map(it => it.world));
  return { worlds: worlds.filter(world => may.some(it => it.world === world)), running };
}

// The access rights of each mode; modes with equal rights are joined.
function modesText(texts) {
  const same = new Map();
  Object.entries(texts).forEach(([mode, rights]) => same.set(rights, (same.get(rights) || "") + mode));
  return [...same].map(([rights, modes]) => modes + " " + rights).join(" ");
}

// The access rights of the running worlds, as r, w and x of all modes together, and the other worlds in brackets. On the bare bench the
// modes are distinguished.
function rightsText(event, row) {
  if (!data.run.monitor) return modesText(row.may.bare);
  const parts = event.columns.map(column => {
    const texts = Object.values(row.may[column.name]);
    const rights = ["r", "w", "x"].map(kind => texts.some(it => it.includes(kind)) ? kind : "-").join("");
    return rights === "---" ? "" : column.derived ? `(${column.name})` : `${column.name} ${rights}`;
  });
  return parts.filter(it => it).join(" ") || "nobody";
}

// Whether a band is strong: a running world can access it; on the bare bench, S or U can.
function isOpen(event, row, who) {
  return data.run.monitor ? who.running.size > 0 : row.may.bare.S !== "---" || row.may.bare.U !== "---";
}
