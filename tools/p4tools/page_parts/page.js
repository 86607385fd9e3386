// The page around the picture: what is searched for, what is open, and the lists.

const DATA = JSON.parse(document.getElementById("data").textContent);
const LIST = 50, ENTRIES = 200;
const FATES = {sent: "sent", drop1: "dropped by the program", drop2: "dropped: there is no program",
  drop3: "dropped: longer than 10,240 bytes", drop4: "dropped: shorter than the header of a packet-in"};
const byId = (name) => document.getElementById(name);
const counted = (number, what) => `${number.toLocaleString("en")} ${what}${number === 1 ? "" : "s"}`;

/** A report as the picture takes it: by column its lane, its kind and the steps before it. */
class Report {
  constructor(device) {
    Object.assign(this, device);
    const columns = this.order.length;
    this.lane = new Int16Array(columns);
    this.kind = new Uint8Array(columns);
    this.stepColumns = [];
    this.ran = new Float64Array(this.steps + 1);
    this.hits = new Float64Array(this.entries.length);
    for (let column = 0; column < columns; column++) this.take(column);
    this.texts = {};
    this.entryTexts = this.entries.map((it) => `${it.table} ${it.key}`.toLowerCase());
  }

  take(column) {
    if (this.isPacket(column)) {
      const packet = this.order[column] / 2, outcome = this.outcomeOf(column);
      this.lane[column] = this.packets.lane[packet];
      this.kind[column] = outcome.ins.length ? IN : outcome.fate === "sent" ? SENT : DROPPED;
      this.ran[this.packets.after[packet]]++;
      for (const entry of outcome.hits) this.hits[entry]++;
    } else {
      const call = this.callOf(column);
      this.lane[column] = call.lane;
      this.kind[column] = call.isOk ? ANSWERED : REFUSED;
      if (this.isStep(column)) this.stepColumns.push(column);
    }
  }

  isPacket(column) { return this.order[column] % 2 === 0; }
  mark(column) { return this.marks[(this.order[column] - 1) / 2]; }
  isStep(column) { return !this.isPacket(column) && this.mark(column)[1] >= 0; }
  callOf(column) { return this.calls[this.mark(column)[0]]; }
  stepAt(column) { return this.callOf(column).steps[this.mark(column)[1]]; }
  outcomeOf(column) { return this.outcomes[this.packets.outcome[this.order[column] / 2]]; }

  nameOf(column) {
    if (!this.isPacket(column)) return `${this.lanes[this.lane[column]]} call ${this.callOf(column).number}`;
    return `${this.lanes[this.lane[column]]} packet ${this.packets.number[this.order[column] / 2]}`;
  }

  /** What a column is, in a line. */
  lineOf(column) {
    if (!this.isPacket(column)) {
      const call = this.callOf(column), step = this.isStep(column) ? `, step ${this.stepAt(column)[0]}` : "";
      return `${this.nameOf(column)} ${call.title}: ${call.code}${step}`;
    }
    const packet = this.order[column] / 2, outcome = this.outcomeOf(column), entered = this.packets.entered[packet];
    const where = [...outcome.outs.map(([port]) => `port ${port}`), ...outcome.ins.map((it) => it === "-" ? "no controller" : `c${it}`)];
    const fate = outcome.fate === "sent" ? `sent to ${where.join(", ") || "no port"}` : FATES[outcome.fate];
    return `${this.nameOf(column)}${entered < 0 ? "" : ": " + (this.summaries[entered] || this.bytes[entered].slice(0, 60))}: ${fate}`;
  }

  /** Whether a text that is told of a column has a word; each text is looked through once. */
  hasWord(column, word) {
    if (!this.isPacket(column)) {
      const call = this.callOf(column);
      return `${this.nameOf(column)} ${call.title} ${call.lines.join(" ")}`.toLowerCase().includes(word);
    }
    const packet = this.order[column] / 2, seen = this.texts[word] ??= {entered: [], outcome: []};
    const entered = this.packets.entered[packet], outcome = this.packets.outcome[packet];
    if (entered >= 0 && (seen.entered[entered] ??= this.isEntered(entered, word))) return true;
    return (seen.outcome[outcome] ??= this.isOutcome(outcome, word)) || this.nameOf(column).includes(word);
  }

  isEntered(entered, word) { return this.bytes[entered].includes(word) || this.summaries[entered].toLowerCase().includes(word); }

  isOutcome(number, word) {
    const outcome = this.outcomes[number];
    return FATES[outcome.fate].includes(word) || outcome.lines.some((it) => it.toLowerCase().includes(word))
      || outcome.hits.some((it) => this.entryTexts[it].includes(word)) || outcome.outs.some(([, data]) => this.bytes[data].includes(word));
  }
}

// What is searched for.

const asked = {words: [], name: "", lane: "", table: "", port: "", fate: "", entry: -1};

function fits(report, column) {
  if (asked.lane && report.lanes[report.lane[column]] !== asked.lane) return false;
  if (asked.fate && KINDS[report.kind[column]] !== asked.fate) return false;
  if (asked.name ? report.nameOf(column) !== asked.name : !asked.words.every((it) => report.hasWord(column, it))) return false;
  if (!report.isPacket(column)) {
    return !asked.port && asked.entry < 0 && (!asked.table || report.callOf(column).tables.includes(asked.table));
  }
  const outcome = report.outcomeOf(column);
  if (asked.entry >= 0 && !outcome.hits.includes(asked.entry)) return false;
  if (asked.table && !outcome.hits.some((it) => report.entries[it].table === asked.table)) return false;
  const port = Number(asked.port);
  return !asked.port || report.packets.port[report.order[column] / 2] === port || outcome.outs.some(([it]) => it === port);
}

let report, picture, foundColumns = [], listFrom = 0;

function isAsked() {
  return asked.words.length || asked.lane || asked.table || asked.port || asked.fate || asked.entry >= 0;
}

function search() {
  const text = byId("search").value.trim().toLowerCase();
  asked.words = text.split(/\s+/).filter((it) => it);
  asked.name = /^[cw]\d+ (call|packet) \d+$/.test(text) ? text : "";
  for (const name of ["lane", "table", "port", "fate"]) asked[name] = byId(name).value;
  byId("entry").hidden = asked.entry < 0;
  if (asked.entry >= 0) byId("entry").textContent = `hits of ${report.entries[asked.entry].table} ${report.entries[asked.entry].key} ×`;
  const columns = report.order.length, found = new Uint8Array(columns);
  foundColumns = [];
  let packets = 0, calls = 0;
  for (let column = 0; column < columns; column++) {
    if (!fits(report, column)) continue;
    found[column] = 1;
    foundColumns.push(column);
    if (report.isPacket(column)) packets++;
    else if (report.mark(column)[1] < 1) calls++;
  }
  report.texts = {};
  picture.found = isAsked() ? found : null;
  byId("found").textContent = isAsked() ? `${counted(packets, "packet")}, ${counted(calls, "call")} found` : "";
  listFrom = 0;
  picture.redraw();
  showList();
}

// What is open.

function made(name, text = "", kind = "") {
  const it = document.createElement(name);
  it.textContent = text;
  if (kind) it.className = kind;
  return it;
}

function linkTo(text, action, kind = "") {
  const it = made("button", text, "link " + kind);
  it.type = "button";
  it.addEventListener("click", action);
  return it;
}

/** Bytes in hex, those marked that differ from others at the same place. */
function bytesOf(hex, other) {
  const it = made("p", "", "bytes");
  if (!hex) it.textContent = "no bytes";
  for (let at = 0; at < hex.length;) {
    const isChanged = (from) => other !== undefined && hex.slice(from, from + 2) !== other.slice(from, from + 2);
    let end = at + 2;
    while (end < hex.length && isChanged(end) === isChanged(at)) end += 2;
    it.append(isChanged(at) ? made("mark", hex.slice(at, end)) : hex.slice(at, end));
    at = end;
  }
  return it;
}

/** Before which step and behind which a column stands. */
function around(column) {
  const steps = report.stepColumns, at = firstFrom(steps, column), list = made("ul");
  for (const [word, place] of [["behind", at - 1], ["before", report.isStep(column) ? at + 1 : at]]) {
    const item = made("li", `${word} `);
    if (place < 0 || place >= steps.length) item.append(place < 0 ? "no step" : "no other step");
    else {
      const [number, kind, changes] = report.stepAt(steps[place]);
      item.append(linkTo(`step ${number} ${kind}${kind === "batch" ? ` of ${changes}` : ""}`, () => open(steps[place])),
        ` of ${report.lineOf(steps[place]).replace(/: [A-Z_]+, step.*/, "")}`);
    }
    list.append(item);
  }
  return list;
}

function tellPacket(column) {
  const packet = report.order[column] / 2, outcome = report.outcomeOf(column);
  const entered = report.packets.entered[packet], port = report.packets.port[packet];
  const told = [made("h2", report.nameOf(column)), made("p", `It ran wholly after step ${report.packets.after[packet]}:`), around(column)];
  if (entered >= 0) {
    told.push(made("h3", port < 0 ? "Entered from its controller" : `Entered at port ${port}`));
    if (report.summaries[entered]) told.push(made("p", report.summaries[entered]));
    told.push(bytesOf(report.bytes[entered]));
  }
  told.push(made("h3", "What became of it"));
  const words = outcome.lines.length ? outcome.lines : outcome.outs.map(([it]) => `sent to port ${it}, with the bytes marked below changed`);
  const kind = KINDS[report.kind[column]];
  words.forEach((line) => told.push(made("p", line, kind)));
  for (const [, data] of outcome.outs) told.push(bytesOf(report.bytes[data], entered < 0 ? undefined : report.bytes[entered]));
  told.push(made("h3", "What it hit"));
  if (!outcome.hits.length) told.push(made("p", "nothing", "quiet"));
  for (const hit of outcome.hits) {
    const entry = report.entries[hit], line = made("p");
    line.append(linkTo(`${entry.table} ${entry.key}`, () => askEntry(hit)));
    told.push(line);
  }
  return told;
}

function tellCall(column) {
  const call = report.callOf(column), [head, ...lines] = call.lines;
  const told = [made("h2", report.nameOf(column)), made("p", head.replace(/^c\d+ call \d+ ?/, ""), call.isOk ? "answered" : "refused")];
  const list = made("ul");
  lines.slice(0, 500).forEach((line) => list.append(made("li", line.trim())));
  if (lines.length > 500) list.append(made("li", `and ${lines.length - 500} lines more: bin/p4tape show tells them`, "quiet"));
  if (lines.length) told.push(list);
  if (!call.steps.length) told.push(made("p", "It made no step."));
  for (const [number, kind, changes] of call.steps.slice(0, 100)) {
    const before = report.ran.slice(0, number).reduce((sum, it) => sum + it, 0), all = report.ran.reduce((sum, it) => sum + it, 0);
    const what = kind === "batch" ? `Step ${number}, a batch of ${changes} in one` : `Step ${number}, ${kind}`;
    told.push(made("p", `${what}: ${counted(before, "packet")} ran wholly before it, ${counted(all - before, "packet")} wholly behind it.`));
  }
  told.push(around(column));
  return told;
}

/** Opens the mark of a column, or closes what is open. */
function open(column) {
  picture.open = column;
  const detail = byId("detail");
  if (column < 0) {
    detail.replaceChildren(made("p", "Choose a mark to see what was asked and answered, where a packet left, what was changed and what it hit.", "quiet"));
  } else {
    detail.replaceChildren(...(report.isPacket(column) ? tellPacket(column) : tellCall(column)));
    detail.scrollTop = 0;
    picture.see(column);
  }
  picture.redraw();
}

// The lists.

function showList() {
  const list = byId("list");
  list.replaceChildren(...foundColumns.slice(listFrom, listFrom + LIST).map((column) => {
    const item = made("li");
    item.append(linkTo(report.lineOf(column), () => open(column), KINDS[report.kind[column]]));
    return item;
  }));
  const last = Math.min(listFrom + LIST, foundColumns.length);
  byId("list-place").textContent = foundColumns.length ? `${(listFrom + 1).toLocaleString("en")} to ${last.toLocaleString("en")} of ${foundColumns.length.toLocaleString("en")} marks` : "nothing";
  byId("list-back").disabled = !listFrom;
  byId("list-on").disabled = last >= foundColumns.length;
}

function turnList(by) {
  listFrom = Math.max(0, Math.min(listFrom + by, foundColumns.length - 1));
  showList();
}

function askEntry(entry) {
  asked.entry = entry;
  search();
}

function showEntries() {
  const body = byId("entries"), order = [...report.entries.keys()].sort((one, other) => report.hits[other] - report.hits[one]);
  body.replaceChildren(...order.slice(0, ENTRIES).map((number) => {
    const entry = report.entries[number], row = made("tr");
    row.append(made("td", entry.table), made("td", entry.key));
    for (const figure of [entry.packets, entry.bytes, report.hits[number]]) {
      row.append(made("td", figure === null ? "–" : figure.toLocaleString("en"), "figure"));
    }
    const cell = made("td", "", "only-screen");
    if (report.hits[number]) cell.append(linkTo("find", () => askEntry(number)));
    row.append(cell);
    return row;
  }));
  const more = report.entries.length - ENTRIES;
  byId("entries-note").textContent = "Counts are those at the end of the run; – where the entry is gone then or is not counted." +
    (more > 0 ? ` The ${ENTRIES} with most hits of ${report.entries.length.toLocaleString("en")}.` : "");
}

function fill(select, words, first) {
  select.replaceChildren(new Option(first, ""), ...words.map((it) => Array.isArray(it) ? new Option(it[1], it[0]) : new Option(it, it)));
}

function showLegend() {
  const colour = colours();
  byId("legend").replaceChildren(...KIND_WORDS.map((words, kind) => {
    const item = made("li"), canvas = document.createElement("canvas");
    canvas.style.width = "16px";
    drawMark(prepared(canvas, 16, 16), kind, 8, 8, 6, colour[KINDS[kind]]);
    item.append(canvas, words);
    return item;
  }), made("li", "a line through all lanes is a step, a thick one a batch"));
}

// Keys and pointers.

function go(from, by, fits) {
  for (let column = from + by; column >= 0 && column < report.order.length; column += by) {
    if (fits(column)) return open(column);
  }
  return undefined;
}

const KEYS = {
  ArrowRight: (column, isShift) => go(column, 1, (it) => !isShift || report.isStep(it)),
  ArrowLeft: (column, isShift) => go(column < 0 ? report.order.length : column, -1, (it) => !isShift || report.isStep(it)),
  ArrowDown: (column) => otherLane(column, 1),
  ArrowUp: (column) => otherLane(column, -1),
  Home: () => open(0),
  End: () => open(report.order.length - 1),
  n: (column) => go(column, 1, (it) => !picture.found || picture.found[it]),
  p: (column) => go(column < 0 ? report.order.length : column, -1, (it) => !picture.found || picture.found[it]),
  "+": (column) => picture.zoom(picture.per * 1.6, column < 0 ? undefined : picture.x(column)),
  "=": (column) => KEYS["+"](column),
  "-": (column) => picture.zoom(picture.per / 1.6, column < 0 ? undefined : picture.x(column)),
  0: () => picture.fit(),
  Enter: () => byId("detail").focus(),
  Escape: () => open(-1),
};

function otherLane(column, by) {
  const from = Math.max(0, column), lane = column < 0 ? 0 : report.lane[from] + by;
  const found = picture.nearest(from, (it) => report.lane[it] === lane);
  if (found !== undefined) open(found);
}

function listenToKeys() {
  byId("timeline").addEventListener("keydown", (event) => {
    const action = KEYS[event.key];
    if (!action || event.ctrlKey || event.altKey || event.metaKey) return;
    event.preventDefault();
    action(picture.open, event.shiftKey);
  });
  document.addEventListener("keydown", (event) => {
    const isWriting = ["INPUT", "SELECT"].includes(document.activeElement.tagName);
    if (event.key === "/" && !isWriting) {
      event.preventDefault();
      byId("search").focus();
    }
    if (event.key === "Escape" && document.activeElement !== byId("timeline")) byId("timeline").focus();
  });
}

function listenToPointers() {
  const canvas = byId("timeline"), overview = byId("overview");
  let held = null;
  canvas.addEventListener("pointerdown", (event) => { held = {x: event.clientX, first: picture.first, isDragged: false}; });
  window.addEventListener("pointermove", (event) => {
    if (!held) return;
    held.isDragged ||= Math.abs(event.clientX - held.x) > 4;
    if (held.isDragged) picture.move(held.first - (event.clientX - held.x) / picture.per);
  });
  window.addEventListener("pointerup", () => { setTimeout(() => { held = null; }); });
  canvas.addEventListener("click", (event) => {
    if (held?.isDragged) return;
    const place = canvas.getBoundingClientRect(), column = picture.at(event.clientX - place.left, event.clientY - place.top);
    if (column >= 0) open(column);
  });
  canvas.addEventListener("wheel", (event) => {
    event.preventDefault();
    const x = event.clientX - canvas.getBoundingClientRect().left;
    if (event.shiftKey || Math.abs(event.deltaX) > Math.abs(event.deltaY)) picture.move(picture.first + (event.deltaX || event.deltaY) / picture.per);
    else picture.zoom(picture.per * Math.exp(-event.deltaY / 300), x);
  }, {passive: false});
  overview.addEventListener("pointerdown", (event) => {
    const place = overview.getBoundingClientRect(), share = (event.clientX - place.left) / place.width;
    picture.move(share * report.order.length - (picture.width - LEFT) / picture.per / 2);
  });
}

function setTheme(theme) {
  document.documentElement.dataset.theme = theme;
  showLegend();
  if (picture) picture.redraw();
}

function listen() {
  const dark = window.matchMedia("(prefers-color-scheme: dark)");
  let waiting = 0, before = "";
  setTheme(dark.matches ? "dark" : "light");
  dark.addEventListener("change", () => setTheme(dark.matches ? "dark" : "light"));
  byId("theme").addEventListener("click", () => setTheme(document.documentElement.dataset.theme === "dark" ? "light" : "dark"));
  window.addEventListener("beforeprint", () => { before = document.documentElement.dataset.theme; setTheme("light"); picture.draw(); });
  window.addEventListener("afterprint", () => setTheme(before));
  window.addEventListener("resize", () => picture.zoom(picture.per));
  byId("search").addEventListener("input", () => { clearTimeout(waiting); waiting = setTimeout(search, 150); });
  for (const name of ["lane", "table", "port", "fate"]) byId(name).addEventListener("change", search);
  byId("entry").addEventListener("click", () => askEntry(-1));
  byId("clear").addEventListener("click", () => { byId("filters").reset(); askEntry(-1); });
  byId("filters").addEventListener("submit", (event) => { event.preventDefault(); search(); go(-1, 1, (it) => picture.found?.[it]); });
  byId("list-back").addEventListener("click", () => turnList(-LIST));
  byId("list-on").addEventListener("click", () => turnList(LIST));
  byId("device").addEventListener("change", () => show(Number(byId("device").value)));
  listenToKeys();
  listenToPointers();
}

/** Shows the report of a device. */
function show(number) {
  report = new Report(DATA.devices[number]);
  picture = new Picture(byId("timeline"), byId("overview"), report, () => {});
  const ports = new Set(report.packets.port.filter((it) => it >= 0));
  for (const outcome of report.outcomes) outcome.outs.forEach(([port]) => ports.add(port));
  const tables = new Set([...report.entries.map((it) => it.table), ...report.calls.flatMap((it) => it.tables)]);
  fill(byId("lane"), report.lanes, "every lane");
  fill(byId("table"), [...tables].sort(), "every table");
  fill(byId("port"), [...ports].sort((one, other) => one - other).map(String), "every port");
  fill(byId("fate"), KINDS.map((it, kind) => [it, KIND_WORDS[kind]]), "every fate");
  byId("figures").textContent = [counted(report.calls.length, "call"), counted(report.steps, "step"),
    counted(report.packets.lane.length, "packet")].join(", ");
  asked.entry = -1;
  showEntries();
  open(-1);
  search();
}

document.title = byId("title").textContent = DATA.title;
byId("device-label").hidden = DATA.devices.length < 2;
fill(byId("device"), DATA.devices.slice(1).map((it, number) => [number + 1, it.name]), DATA.devices[0].name || "the report");
listen();
show(0);
document.documentElement.dataset.ready = "yes";
