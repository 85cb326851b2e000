// The search by pointer, symbol and address, and the filters.
const hover = document.getElementById("hover"), finder = document.getElementById("find"), NEAR = 7, MOST_NEAR = 3000;

// The point nearest to a position of the picture: its step, and whether it is a load or store.
function nearest(x, y) {
  const first = Math.max(1, stepAt(x - NEAR)), last = Math.min(stepAt(x + NEAR), first + MOST_NEAR);
  let best = null, least = NEAR * NEAR;
  for (let step = first; step <= last; step++) {
    if (hidden.has(placeOf(step).world)) continue;
    touchedAt(step).forEach((address, place) => {
      const far = (xOf(step - 0.5) - x) ** 2 + (yOf(address) - y) ** 2;
      if (far < least) [least, best] = [far, { step, isAccess: place > 0 }];
    });
  }
  return best;
}

// The symbol of an address that was executed or accessed, or the nearest one below.
function nameAt(address) {
  const segment = segments[lastAtMost(segments, address, it => it.low)];
  const label = segment && segment.labels[lastAtMost(segment.labels, address, it => parseInt(it.address, 16))];
  return label ? label.name : "";
}

function hoverLines(x, y) {
  const near = nearest(x, y), address = addressAt(y);
  if (near) {
    const site = siteOf(near.step), place = placeOf(near.step);
    const lines = [`step ${near.step.toLocaleString("en")}, ${placeName(place)}`, `${site.pc} ${site.symbol || ""}  ${site.shown || ""}`];
    return near.isAccess ? [...lines, touchText(touchOf(near.step))] : lines;
  }
  if (address === null || x < box.left) return address === null ? [] : [hex8(address), nameAt(address)];
  const step = stepAt(x), row = rowAt(data.events[eventAt(step)], address);
  const may = row ? `${row.what} ${rightsText(data.events[eventAt(step)], row)}` : "";
  return [`${hex8(address)} ${nameAt(address)}`, may];
}

function showHover(x, y) {
  const lines = y >= box.top && y <= box.bottom ? hoverLines(x, y).filter(it => it.trim()) : [];
  hover.hidden = !lines.length;
  hover.replaceChildren(...lines.map(it => element("div", "", it)));
  hover.style.left = Math.max(0, Math.min(x + 14, box.full - hover.offsetWidth - 4)) + "px";
  hover.style.top = (y + hover.offsetHeight + 20 > box.height ? y - hover.offsetHeight - 8 : y + 14) + "px";
}

function hideHover() {
  hover.hidden = true;
}

// Predicates for the sites and the accesses of a symbol or an address.
function wantedOf(text) {
  const address = /^(0x)?[0-9a-f]{8}$/i.test(text) ? parseInt(text, 16) : null;
  const isNamed = name => name === text || Boolean(name) && name.startsWith(text + "+");
  if (address !== null) return {
    site: at => pcs[at] === address,
    touch: at => run.touch.address[at] <= address && address < run.touch.address[at] + run.touch.width[at],
  };
  const sites = data.sites.map(it => isNamed(it.symbol)), names = data.names.map(isNamed);
  return { site: at => sites[at], touch: at => names[run.touch.name[at]] };
}

// The next or previous step that executes or accesses it; wraps around at the ends of the run.
function findFrom(wanted, direction) {
  for (let count = 1; count <= run.steps; count++) {
    const step = (current - 1 + direction * count + 2 * run.steps) % run.steps + 1;
    if (wanted.site(run.site[step - 1])) return step;
    const at = lastAtMost(run.touch.step, step);
    if (at >= 0 && run.touch.step[at] === step && wanted.touch(at)) return step;
  }
  return null;
}

function find(direction) {
  const text = finder.value.trim(), step = text ? findFrom(wantedOf(text), direction) : current;
  document.getElementById("found").textContent = step === null ? "not found" : "";
  if (step !== null) show(step);
}

finder.addEventListener("keydown", event => {
  if (event.key === "Enter") find(event.shiftKey ? -1 : 1);
  if (event.key === "Escape") finder.blur();
});

const SHOWN_KINDS = [["read", "loads"], ["write", "stores"], ["execute", "instructions"], ["refused", "refused"]];

function showFilters() {
  const box = (name, text) => {
    const input = document.createElement("input");
    input.type = "checkbox";
    input.checked = true;
    input.addEventListener("change", () => { if (input.checked) hidden.delete(name); else hidden.add(name); draw(); });
    return element("label", "", input, text);
  };
  put("filters", element("span", "aside", "show:"), ...[...new Set(data.places.map(it => it.world))].map(it => box(it, it)),
    ...SHOWN_KINDS.map(([name, text]) => box(name, text)));
}
