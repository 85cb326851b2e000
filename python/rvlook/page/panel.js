// The panel: the current step, the access rights after it, the registers, and the source.
const BEFORE = 4, AFTER = 4, STEP_COLUMNS = 4, MOST_LINES = 12, SOURCE_BEFORE = 4, SOURCE_AFTER = 5;

// Makes an element with a class and its contents.
function element(tag, name, ...parts) {
  const made = document.createElement(tag);
  if (name) made.className = name;
  made.append(...parts.filter(it => it !== null && it !== undefined && it !== ""));
  return made;
}

function put(id, ...parts) {
  document.getElementById(id).replaceChildren(...parts);
}

function table(heads, rows) {
  const made = element("table", "");
  if (heads.length) made.append(element("tr", "", ...heads.map(it => element("th", "", it))));
  made.append(...rows);
  return element("div", "wide", made);
}

const placeName = place => (hartCount > 1 ? "hart " + place.hart + ", " : "") + place.world + " in " + place.mode;

function touchText(touch) {
  const what = isWritten(touch.kind) ? "writes" : "reads";
  const bytes = touch.width === 1 ? "1 byte" : touch.width + " bytes";
  const value = touch.value === null ? "" : (isWritten(touch.kind) ? ": " : " = ") + touch.value;
  return `${what} ${bytes} at ${hex8(touch.address)}${touch.symbol ? " " + touch.symbol : ""}` +
    (isRefused(touch.kind) ? ": refused" : value);
}

// The effect of a step, in short.
function effectOf(step) {
  const trap = trapOf(step), touch = touchOf(step), call = callAt.get(step);
  const changes = changesOf(step).map(([number, value]) => ABI[number] + "=" + hex8(value));
  const parts = [];
  if (call) parts.push(callName(call));
  else if (trap) parts.push(trap.name);
  if (touch && !isRefused(touch.kind)) parts.push((isWritten(touch.kind) ? "w " : "r ") + hex8(touch.address) +
    (touch.value === null ? "" : "=" + touch.value));
  if (!call && changes.length) parts.push(changes.length > 3 ? changes.length + " registers" : changes.join(" "));
  return parts.join(", ");
}

function showWhere(step) {
  if (!step) {
    put("where", "At reset");
    put("did", element("p", "mono", `pc ${data.run.pc}, ${data.run.world} in ${data.run.mode}`), ...commandsAfter(0));
    return;
  }
  const site = siteOf(step), place = placeOf(step), trap = trapOf(step), touch = touchOf(step), call = callAt.get(step);
  put("where", `Step ${step.toLocaleString("en")}: ${placeName(place)}`);
  const lines = [element("p", "mono", site.pc, site.symbol ? "  " + site.symbol : "", sourceText(site))];
  if (isInterrupt(trap)) lines.push(element("p", "refused", trap.name + ": no instruction is executed"));
  else lines.push(element("p", "mono here", site.shown || "no instruction"));
  if (touch) lines.push(element("p", isRefused(touch.kind) ? "refused" : "", touchText(touch)));
  if (call) lines.push(element("p", call.refused ? "refused" : "", callText(call)));
  else if (trap && !isInterrupt(trap)) lines.push(element("p", "refused", `trap: ${trap.name}, value ${trap.value}`));
  const printed = data.consoles.filter(it => it.step === step).map(it => element("p", "mono", `${it.writer} console: ${it.text}`));
  put("did", ...lines, ...printed, ...commandsAfter(step));
}

// The source line; for inlined code also that of the call.
const sourceText = site => site.source ? "  " + (site.caller ? site.caller + ", in " : "") + site.source : "";

function callText(call) {
  const words = Object.entries(call.arguments).map(([name, value]) => name.replace("_", " ") + " " + value).join(", ");
  const isSame = call.to === placeOf(call.step).world;
  return `calls ${call.name} (${words}): ${call.refused ? "refused, " + call.refused : isSame ? "done" : "switch to " + call.to}`;
}

function commandsAfter(step) {
  const lines = data.commands.filter(it => it.step === step);
  const rest = lines.length > MOST_LINES ? [element("p", "aside", `and ${lines.length - MOST_LINES} more script lines`)] : [];
  return lines.slice(0, MOST_LINES).map(it => element("p", "mono aside", "> " + it.line + (it.replies.length ? "  " + it.replies[0] : "") +
    (it.replies.length > 1 ? ` (and ${it.replies.length - 1} more lines)` : ""))).concat(rest);
}

function showSteps(step) {
  const first = Math.max(1, step - BEFORE), last = Math.min(run.steps, step + AFTER), rows = [];
  let function_ = null, world = null;
  for (let at = first; at <= last; at++) {
    const site = siteOf(at), place = placeOf(at);
    if (hartCount === 1 && (site.function !== function_ || place.world !== world)) {
      [function_, world] = [site.function, place.world];
      const head = element("td", "", element("span", "world", world), function_ ? "  " + function_ : "");
      head.colSpan = STEP_COLUMNS - 1;
      rows.push(element("tr", "aside", element("td", ""), head));
    }
    const text = isInterrupt(trapOf(at)) ? "(interrupt)" : site.shown || "";
    const cells = [at, ...(hartCount > 1 ? [`${place.hart}: ${place.world}`] : []), site.pc, text, effectOf(at)];
    const row = element("tr", at === step ? "here" : "", ...cells.map(it => element("td", "", String(it))));
    row.addEventListener("click", () => show(at));
    rows.push(row);
  }
  put("steps", element("h3", "", "Steps"), table([], rows));
}

function touchedAt(step) {
  if (!step) return [];
  const touch = touchOf(step);
  return [pcs[run.site[step - 1]], ...(touch ? [touch.address] : [])];
}

// The access rights of the modes, once if they are equal.
function cellText(texts) {
  const values = Object.values(texts);
  return values.every(it => it === values[0]) ? values[0] : modesText(texts);
}

function showMap(step) {
  const event = data.events[eventAt(step)], touched = touchedAt(step);
  const heads = ["from", "to", ...event.columns.map(it => it.derived ? `(${it.name})` : it.name), "what"];
  const rows = [...event.rows].reverse().map(row => {
    const first = parseInt(row.first, 16), last = parseInt(row.last, 16);
    const cells = event.columns.map(it => element("td", it.derived ? "derived" : "", cellText(row.may[it.name])));
    const isHere = touched.some(it => it >= first && it <= last);
    const ends = [row.first, row.last].map(it => element("td", "", it));
    return element("tr", isHere ? "here" : "", ...ends, ...cells, element("td", "", row.what));
  });
  const since = event.step ? `since step ${event.step}, ${event.cause}${event.slot === null ? "" : " e" + event.slot}` : "since reset";
  const derived = event.columns.some(it => it.derived) ? "; in brackets, derived: worlds that are not running" : "";
  put("map", table(heads, rows), element("p", "aside", since + derived));
  const lives = event.enclaves.map(it => element("tr", "", ...[`e${it.slot}`, it.state, it.base, it.size.toString(16), it.window,
    it.window_size.toString(16), it.entry, it.measurement.slice(0, 8) + "…"].map(text => element("td", "", text))));
  put("enclaves", ...(lives.length ? [element("h3", "", "Enclaves"),
    table(["", "state", "region", "size", "window", "size", "entry", "measured"], lives)] : []));
}

function showRegisters(step) {
  const hart = step ? placeOf(step).hart : 0, values = registersAfter(step, hart);
  const changed = new Set(step ? changesOf(step).map(([number]) => number) : []), grid = element("div", "grid");
  for (let number = 0; number <= LAST_REGISTER; number++)
    grid.append(element("span", changed.has(number) ? "changed" : "", element("span", "", ABI[number]), hex8(values[number])));
  put("registers", grid);
}

// A Map, since a file name may be that of a member of every object, such as __proto__.
const sourceTexts = new Map(Object.entries(data.sources));

// The file and the line number of a source line; the name of the file may have a colon.
function nameAndLine(source) {
  const at = source.lastIndexOf(":");
  return [source.slice(0, at), Number(source.slice(at + 1))];
}

function showSource(step) {
  const site = step ? siteOf(step) : {}, source = site.caller || site.source;
  const [name, line] = source ? nameAndLine(source) : [null, 0], text = name === null ? "" : sourceTexts.get(name);
  if (!text) return put("source");
  const lines = text.split("\n"), first = Math.max(1, line - SOURCE_BEFORE), last = Math.min(lines.length, line + SOURCE_AFTER);
  const pre = element("pre", "");
  for (let at = first; at <= last; at++)
    pre.append(element("div", at === line ? "here" : "", String(at).padStart(4) + "  " + lines[at - 1]));
  put("source", element("h3", "", name + (site.caller ? ", in " + site.source : "")), pre);
}

function showAbout() {
  const { run: setup, end } = data, last = end ? `${end.world} ${end.why === "halted" ? "halts at" : "is at"} ${end.pc}` : "";
  const harts = setup.harts > 1 ? ", two harts" : "";
  put("about", `${run.steps.toLocaleString("en")} steps ${setup.monitor ? "under the monitor" : "on the bare bench"}${harts}; ${last}`);
}
