// The call stack before a step, and the variables of its innermost frame.
const CALLS = 1, RETURNS = 2, SP = 2, MOST_FRAMES = 12;
const linkOf = Uint8Array.from(data.sites, site => /^jalr? ra,/.test(site.abi) ? CALLS : /^jalr zero, 0\(ra\)/.test(site.abi) ? RETURNS : 0);
const frameChecks = [];

const stackName = place => `${place.hart}:${place.world}:${place.mode}`;

// Applies a step to the stacks: each has the steps of the calls that have not returned, in a hart, a world and a mode.
function goOnStacks(stacks, step) {
  const call = callAt.get(step), place = placeOf(step);
  if (call && call.name === "run" && !call.refused)
    [...stacks.keys()].filter(it => it.startsWith(`${place.hart}:${call.to}:`)).forEach(it => stacks.delete(it));
  const link = run.trap[step - 1] ? 0 : linkOf[run.site[step - 1]];
  if (!link) return;
  const name = stackName(place), stack = stacks.get(name) || [];
  if (link === CALLS) stack.push(step); else stack.pop();
  stacks.set(name, stack);
}

const copied = stacks => new Map([...stacks].map(([name, calls]) => [name, calls.slice()]));

// The steps of the calls that are open before a step, the innermost one last.
function callsBefore(step) {
  if (!frameChecks.length) {
    const stacks = new Map();
    for (let at = 1; at <= run.steps; at++) {
      if ((at - 1) % INTERVAL === 0) frameChecks.push(copied(stacks));
      goOnStacks(stacks, at);
    }
  }
  const start = Math.floor((step - 1) / INTERVAL), stacks = copied(frameChecks[start]);
  for (let at = start * INTERVAL + 1; at < step; at++) goOnStacks(stacks, at);
  return stacks.get(stackName(placeOf(step))) || [];
}

// The bytes of memory that stores before a step have left, as a little-endian number; null if a byte was not stored.
function storedBefore(step, address, size) {
  const bytes = new Array(size).fill(null);
  for (let at = lastAtMost(run.touch.step, step - 1); at >= 0 && bytes.includes(null); at--) {
    if (!isWritten(run.touch.kind[at]) || isRefused(run.touch.kind[at])) continue;
    const offset = run.touch.address[at] - address;
    for (let n = 0; n < run.touch.width[at]; n++)
      if (offset + n >= 0 && offset + n < size && bytes[offset + n] === null) bytes[offset + n] = run.touch.value[at] >>> 8 * n & 0xFF;
  }
  return bytes.includes(null) ? null : bytes.reduceRight((sum, byte) => sum * 256 + byte, 0);
}

// The value of a variable before a step; null if it is not known.
function valueBefore(step, variable, calls) {
  const { hart } = placeOf(step), [kind, number] = variable.where;
  if (kind === "value") return number >>> 0;
  if (kind === "register") return registersAfter(step - 1, hart)[number];
  const entry = calls.length ? calls[calls.length - 1] : null;
  if (kind === "entry" && entry === null) return null;
  const sp = registersAfter(kind === "sp" ? step - 1 : entry, hart)[SP];
  return storedBefore(step, sp + number >>> 0, variable.size);
}

function frameText(site) {
  return [site.function || site.pc, site.source ? "  " + sourceText(site).trim() : ""].join("");
}

function showStack(step) {
  if (!step) return put("stack");
  const calls = callsBefore(step), shown = [step, ...calls.slice().reverse()].slice(0, MOST_FRAMES);
  const frames = shown.map((at, depth) => {
    const line = element("p", depth ? "mono frame" : "mono here", `#${depth} ${frameText(siteOf(at))}${depth ? `  step ${at.toLocaleString("en")}` : ""}`);
    line.addEventListener("click", () => show(at));
    return line;
  });
  const more = calls.length + 1 - frames.length;
  if (more) frames.push(element("p", "aside", `and ${more} more frames`));
  put("stack", element("h3", "", "Call stack"), ...frames, ...variablesBefore(step, calls));
}

function variablesBefore(step, calls) {
  const pc = pcs[run.site[step - 1]], names = new Map();
  data.variables.filter(it => it.first <= pc && pc < it.end).forEach(it => names.set(it.name, it));
  const rows = [...names.values()].map(it => {
    const value = valueBefore(step, it, calls);
    const place = it.where[0] === "register" ? ABI[it.where[1]] : it.where[0] === "value" ? "constant" : "stack";
    const texts = value === null ? [it.name, "not stored yet", ""] : [it.name, hex8(value).slice(8 - 2 * it.size), value.toLocaleString("en")];
    return element("tr", "", ...texts.map(text => element("td", "", text)), element("td", "aside", place));
  });
  return rows.length ? [element("h3", "", "Variables before the step"), table([], rows)] : [];
}
