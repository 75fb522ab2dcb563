// Draws the panels of a file as charts, from answers of /query. Its state is that file and the page's address alone:
//   range (seconds up to now), or from and to (seconds of the Unix epoch); interval; refresh; zone; panels (a file)
// Each range is widened to whole buckets, so that cells can answer where raw points are gone. No proof speaks of this
// page.
"use strict";

const SECONDS_OF = { s: 1, m: 60, h: 3600, d: 86400, w: 604800 };
const RANGES = {
  900: "15 minutes",
  3600: "1 hour",
  10800: "3 hours",
  21600: "6 hours",
  43200: "12 hours",
  86400: "1 day",
  172800: "2 days",
  604800: "7 days",
  2592000: "30 days",
  7776000: "90 days",
  31536000: "365 days",
};
const INTERVALS = ["1m", "5m", "15m", "1h", "6h", "1d"];
const REFRESHES = { panel: "as the panel says", 0: "never", 10: "10 s", 30: "30 s", 60: "1 minute", 300: "5 minutes" };
const ZONES = { local: "local time", utc: "UTC" };
const DEFAULTS = { range: "21600", interval: "auto", refresh: "panel", zone: "local", panels: "main" };
const TICK_STEPS = [
  10, 30, 60, 300, 600, 900, 1800, 3600, 7200, 10800, 21600, 43200, 86400, 172800, 604800, 2592000, 7776000,
];
const COLOURS = ["#0072b2", "#c04f00", "#007a5a", "#a0478a", "#7a5c00", "#4b4b4b", "#c02942", "#3d5a98"];
const PIXELS_PER_BUCKET = 4;
const MOST_BUCKETS = 10000;
const PATIENCE = 60000;

// The words are those of `tsdb faults`; the cures are for one who may change the panel, the rules or the view.
const FAULTS = {
  71: ["a syntax error in a query", "Correct the panel's query at the marked place."],
  72: ["this part of InfluxQL isn't supported",
    "Write the marked part otherwise: a panel selects functions of one field, with time($interval)."],
  73: ["the query has no lower time bound", "Write $range into the panel's WHERE."],
  74: ["a number, a duration or a time is out of range",
    "Correct the marked number, duration or time; times are in UTC."],
  75: ["two columns have the same name, or one is named time", "Give one of the columns another name with AS."],
  76: ["there are more than 16 statements", "Divide the panel into several."],
  77: ["the range has more than 10,000 buckets", "Choose a longer interval or a shorter range."],
  78: ["the first bucket starts before the least time", "Choose a later range."],
  91: ["the query needs dropped points, and no cells fit it",
    "Choose a longer interval, which that of a rule divides, or a later range. If that doesn't help, no rule " +
    "of the measurement keeps all tags that the panel names, or its cells have expired."],
  92: ["more than 1,000,000 buckets of rules would have to be searched for a plan", "Choose a shorter range."],
};

// ---- Numbers, texts and times

/// Returns the number of a value: null of null, the quotient of a mean's fraction "n/d", the nearest of a long sum's text.
function numberOf(value) {
  if (value === null) return null;
  const [numerator, denominator = "1"] = String(value).split("/");
  return Number(numerator) / Number(denominator);
}

/// Returns the seconds of an interval such as "5m", or NaN.
function secondsOf(interval) {
  const parts = /^(\d+)([smhdw])$/.exec(interval);
  return parts ? Number(parts[1]) * SECONDS_OF[parts[2]] : NaN;
}

function writeNumber(value) {
  return value.toLocaleString("en", { maximumSignificantDigits: 9 });
}

/// Returns how far a zone's clock is ahead of UTC at a moment, in milliseconds.
function zoneOffset(zone, moment) {
  return zone === "utc" ? 0 : -new Date(moment).getTimezoneOffset() * 60000;
}

/// Returns a moment (milliseconds) in words of the zone.
function writeTime(moment, zone, parts) {
  return new Date(moment).toLocaleString("en-GB", { timeZone: zone === "utc" ? "UTC" : undefined, ...parts });
}

const DAY = { day: "numeric", month: "short" };
const CLOCK = { hour: "2-digit", minute: "2-digit" };
const WHOLE = { ...DAY, year: "numeric", ...CLOCK };

/// Returns a moment as its clock, with its day if that isn't the day of another moment.
function writeShortly(moment, other, zone) {
  const day = writeTime(moment, zone, DAY);
  return writeTime(moment, zone, day === writeTime(other, zone, DAY) ? CLOCK : { ...DAY, ...CLOCK });
}

/// Returns whole hours or days of the zone between two moments (milliseconds), at most ten of them.
function ticksBetween(from, to, zone) {
  const step = 1000 * (TICK_STEPS.find((seconds) => (to - from) / (seconds * 1000) <= 10) || TICK_STEPS.at(-1));
  const ticks = [];
  const first = Math.ceil((from + zoneOffset(zone, from)) / step) * step;
  for (let clock = first; ; clock += step) {
    const tick = clock - zoneOffset(zone, clock - zoneOffset(zone, clock));
    if (tick > to) return ticks;
    if (tick >= from) ticks.push(tick);
  }
}

function writeTick(tick, zone) {
  const clock = writeTime(tick, zone, CLOCK);
  return clock === "00:00" ? writeTime(tick, zone, DAY) : clock;
}

// ---- The view: what the address says

function readView() {
  const address = new URLSearchParams(location.search);
  const view = {};
  for (const [name, value] of Object.entries(DEFAULTS)) view[name] = address.get(name) || value;
  for (const name of ["from", "to"]) view[name] = address.has(name) ? Number(address.get(name)) : null;
  if (!(view.from < view.to)) view.from = view.to = null;
  if (!(Number(view.range) > 0)) view.range = DEFAULTS.range;
  if (view.interval !== "auto" && !(secondsOf(view.interval) > 0)) view.interval = DEFAULTS.interval;
  if (!(view.refresh in REFRESHES)) view.refresh = DEFAULTS.refresh;
  if (!(view.zone in ZONES)) view.zone = DEFAULTS.zone;
  if (!/^[a-z0-9_-]+$/.test(view.panels)) view.panels = DEFAULTS.panels;
  return view;
}

function writeView(view) {
  const address = new URLSearchParams();
  for (const [name, value] of Object.entries(DEFAULTS)) if (view[name] !== value) address.set(name, view[name]);
  if (view.from !== null) {
    address.delete("range");
    address.set("from", view.from);
    address.set("to", view.to);
  }
  history.pushState(null, "", "?" + address);
}

/// Returns the start and the end of the view in seconds, before they are widened.
function boundsOf(view) {
  if (view.from !== null) return [view.from, view.to];
  const now = Date.now() / 1000;
  return [now - Number(view.range), now];
}

/// Returns the bounds widened to whole buckets of an interval in seconds.
function widened([from, to], seconds) {
  return [Math.floor(from / seconds) * seconds, Math.ceil(to / seconds) * seconds];
}

/// Returns the intervals to ask, the first for the width and then longer ones, which fit more cells.
function intervalsFor(panel, view, width) {
  if (view.interval !== "auto") return [view.interval];
  const [from, to] = boundsOf(view);
  const most = Math.min(MOST_BUCKETS - 1, Math.max(width / PIXELS_PER_BUCKET, 10));
  const all = (panel.intervals || INTERVALS).slice().sort((a, b) => secondsOf(a) - secondsOf(b));
  const fitting = all.filter((interval) => (to - from) / secondsOf(interval) <= most);
  const chosen = fitting.length ? fitting : all.slice(-1);
  return chosen.filter((interval, index) => index === 0 || secondsOf(interval) <= to - from);
}

// ---- Requests

/// A trouble that is shown in place of a chart: a fault of the store, or words of the way to it.
class Trouble extends Error {
  constructor(kind, message, query) {
    super(message);
    this.kind = kind;
    this.query = query;
    const fault = /^fault (\d+)(?: at (\d+))?/.exec(message);
    this.fault = fault ? Number(fault[1]) : null;
    this.offset = fault && fault[2] !== undefined ? Number(fault[2]) : null;
  }
}

/// Returns the results of a text of queries. Throws a Trouble if it is refused, or isn't answered.
async function ask(query, parameters) {
  let response, reply;
  try {
    const address = "/query?" + new URLSearchParams({ ...parameters, q: query });
    response = await fetch(address, { cache: "no-store", signal: AbortSignal.timeout(PATIENCE) });
  } catch (error) {
    throw new Trouble("stopped", "the server of this page does not answer (" + error.message + ")", query);
  }
  try {
    reply = await response.json();
  } catch (error) {
    throw new Trouble("stopped", "the reply is no JSON; its status is " + response.status, query);
  }
  const refused = reply.error || (reply.results.find((result) => result.error) || {}).error;
  if (refused) throw new Trouble(response.status >= 500 ? "stopped" : "refused", refused, query);
  return reply.results;
}

/// Returns a panel's query with a range and an interval.
function queryOf(panel, [from, to], interval) {
  return panel.query.replaceAll("$range", `time >= ${from}s AND time < ${to}s`).replaceAll("$interval", interval);
}

/// Returns a panel's answer at the first interval that isn't refused for lack of cells, or throws the first refusal.
async function answerOf(panel, view, width) {
  let first = null;
  for (const interval of intervalsFor(panel, view, width)) {
    const bounds = widened(boundsOf(view), secondsOf(interval));
    const query = queryOf(panel, bounds, interval);
    try {
      const results = await ask(query, { epoch: "s" });
      return { results, interval, bounds, query, refused: first };
    } catch (trouble) {
      first = first || trouble;
      if (trouble.fault !== 91 && trouble.fault !== 77) throw trouble;
    }
  }
  throw first;
}

/// Returns in words which source each part of an answer comes from.
async function planOf(query, zone) {
  const results = await ask(query, { explain: "1" });
  return results.map((result) => writePlan(result.cert, zone)).join(" / ");
}

function writePlan(certificate, zone) {
  const pieces = [];
  for (const line of certificate.split("\n")) {
    const rollup = /^rollup (\S+) (-?\d+) (-?\d+)$/.exec(line);
    const raw = /^raw (-?\d+) (-?\d+)$/.exec(line);
    if (rollup) addPiece(pieces, `cells of the rule ${rollup[1]}`, rollup[2], rollup[3]);
    if (raw) addPiece(pieces, "raw points", raw[1], raw[2]);
  }
  const texts = pieces.map((piece) => {
    const start = writeTime(piece.from, zone, { ...DAY, ...CLOCK });
    return `${piece.source} from ${start} to ${writeShortly(piece.to, piece.from, zone)}`;
  });
  return "Read from " + texts.join(", then ") + ".";
}

/// Appends a piece of a plan (nanoseconds), or extends the last one if that has the same source.
function addPiece(pieces, source, from, to) {
  const last = pieces.at(-1);
  if (last && last.source === source) last.to = Number(to) / 1e6;
  else pieces.push({ source, from: Number(from) / 1e6, to: Number(to) / 1e6 });
}

// ---- Drawing

/// Returns the series of all results: a label, and points in milliseconds with their number and the text of the reply.
function seriesOf(results, panel) {
  const all = [];
  for (const result of results) {
    for (const series of result.series || []) {
      series.columns.slice(1).forEach((column, index) => {
        const points = series.values.map((row) => {
          const number = numberOf(row[index + 1]);
          return { x: row[0] * 1000, y: number === null ? null : number / (panel.scale || 1) };
        });
        all.push({ label: labelOf(series, column, series.columns.length > 2 || results.length > 1), points });
      });
    }
  }
  return all;
}

function labelOf(series, column, severalColumns) {
  const tags = Object.entries(series.tags || {});
  const words = tags.map(([key, value]) => (tags.length === 1 ? value || "(none)" : `${key}=${value || "(none)"}`));
  if (severalColumns || !tags.length) words.push(tags.length ? column : `${series.name} ${column}`);
  return words.join(", ");
}

/// Returns a chart's data: a line for each series, dashed into a bucket that isn't over yet, with dots at lone points.
function datasetsOf(all, seconds) {
  const isOpen = (point) => point.x + seconds * 1000 > Date.now();
  return all.map((series, index) => {
    const points = series.points;
    const isGap = (at) => !points[at] || points[at].y === null;
    const isLone = (at) => isGap(at - 1) && isGap(at + 1);
    const colour = COLOURS[index % COLOURS.length];
    return {
      label: series.label,
      data: points,
      borderColor: colour,
      backgroundColor: colour,
      borderWidth: 2,
      spanGaps: false,
      pointRadius: points.map((point, at) => (isOpen(point) ? 4 : isLone(at) ? 2.5 : 0)),
      pointBackgroundColor: points.map((point) => (isOpen(point) ? "#ffffff" : colour)),
      pointHitRadius: 8,
      segment: { borderDash: (context) => (isOpen(points[context.p1DataIndex]) ? [4, 4] : undefined) },
    };
  });
}

function chartOptions(panel, view, bounds, seconds) {
  const zone = view.zone;
  const localZone = Intl.DateTimeFormat().resolvedOptions().timeZone;
  const withUnit = (value) => writeNumber(value) + (panel.unit ? " " + panel.unit : "");
  return {
    animation: false,
    parsing: false,
    normalized: true,
    responsive: true,
    maintainAspectRatio: false,
    interaction: { mode: "nearest", axis: "x", intersect: false },
    scales: {
      x: {
        type: "linear",
        min: bounds[0] * 1000,
        max: bounds[1] * 1000,
        title: { display: true, text: zone === "utc" ? "UTC" : "local time, " + localZone, color: "#4a5361" },
        afterBuildTicks: (axis) => (axis.ticks = ticksBetween(axis.min, axis.max, zone).map((value) => ({ value }))),
        ticks: { callback: (tick) => writeTick(tick, zone), autoSkip: false, maxRotation: 0, color: "#1a1a1a" },
      },
      y: {
        title: { display: Boolean(panel.unit), text: panel.unit, color: "#4a5361" },
        ticks: { color: "#1a1a1a", callback: (value) => writeNumber(value) },
      },
    },
    plugins: {
      legend: { labels: { color: "#1a1a1a", boxWidth: 14, boxHeight: 3 } },
      tooltip: {
        callbacks: {
          title: (items) => writeBucket(items[0].parsed.x, seconds, zone),
          label: (item) => `${item.dataset.label}: ${withUnit(item.parsed.y)}`,
        },
      },
    },
  };
}

/// Returns a bucket's start and end in words, and whether it still fills.
function writeBucket(start, seconds, zone) {
  const end = start + seconds * 1000;
  const words = writeRange(start, end, zone);
  return end > Date.now() ? words + " (unfinished)" : words;
}

function element(name, text, attributes = {}) {
  const made = document.createElement(name);
  if (text !== undefined) made.textContent = text;
  for (const [key, value] of Object.entries(attributes)) made.setAttribute(key, value);
  return made;
}

/// Returns a table of the points, the latest bucket first.
function tableOf(panel, all, seconds, zone) {
  const table = element("table");
  const unit = panel.unit ? ", in " + panel.unit : "";
  table.append(element("caption", panel.title + unit + ", the latest bucket first"));
  const head = element("tr");
  const names = ["Bucket", ...all.map((series) => series.label)];
  head.append(...names.map((name) => element("th", name, { scope: "col" })));
  table.append(element("thead"), element("tbody"));
  table.tHead.append(head);
  const rows = new Map();
  all.forEach((series, index) => {
    for (const point of series.points) {
      if (!rows.has(point.x)) rows.set(point.x, new Array(all.length).fill(null));
      rows.get(point.x)[index] = point.y;
    }
  });
  for (const start of [...rows.keys()].sort((a, b) => b - a)) {
    const row = element("tr");
    row.append(element("th", writeBucket(start, seconds, zone), { scope: "row" }));
    row.append(...rows.get(start).map((value) => element("td", value === null ? "–" : writeNumber(value))));
    table.tBodies[0].append(row);
  }
  return table;
}

/// Returns a query with its refused byte marked.
function markedQuery(query, offset) {
  const pre = element("pre");
  if (offset === null) {
    pre.textContent = query;
    return pre;
  }
  const bytes = new TextEncoder().encode(query);
  const text = (from, to) => new TextDecoder().decode(bytes.slice(from, to));
  const word = /^[A-Za-z0-9_"']+|^./.exec(text(offset)) || [" "];
  const end = offset + new TextEncoder().encode(word[0]).length;
  pre.append(text(0, offset), element("mark", word[0]), text(end));
  return pre;
}

/// A panel of the page, with its chart.
class Panel {
  constructor(panel) {
    this.panel = panel;
    this.due = 0;
    this.turn = 0;
    this.section = element("section", undefined, { "data-state": "waiting", "aria-busy": "true" });
    this.chartBox = element("div", undefined, { class: "chart" });
    this.canvas = element("canvas", undefined, { role: "img" });
    this.message = element("div", undefined, { class: "message", role: "status" });
    this.plan = element("p", undefined, { class: "plan" });
    this.note = element("p", undefined, { class: "note" });
    this.table = element("details");
    this.table.append(element("summary", "Table"), element("div", undefined, { class: "scroll" }));
    this.table.addEventListener("toggle", () => this.fillTable());
    this.chartBox.append(this.canvas);
    this.section.append(element("h2", panel.title), this.message, this.chartBox, this.plan, this.note, this.table);
    this.hide();
    this.listenForZoom();
  }

  hide() {
    this.message.hidden = this.chartBox.hidden = this.table.hidden = true;
    this.plan.textContent = this.note.textContent = "";
  }

  /// Asks for the panel's points and shows them. A later call makes an earlier one return without an effect.
  async show(view) {
    const turn = ++this.turn;
    const refresh = view.refresh === "panel" ? this.panel.refresh || 60 : Number(view.refresh);
    this.due = refresh && (view.to === null || view.to * 1000 > Date.now()) ? Date.now() + refresh * 1000 : Infinity;
    this.section.setAttribute("aria-busy", "true");
    try {
      const answer = await answerOf(this.panel, view, this.section.clientWidth);
      const plan = await planOf(answer.query, view.zone);
      if (turn === this.turn) this.draw(view, answer, plan);
    } catch (error) {
      if (turn === this.turn) this.explain(error);
    }
    if (turn === this.turn) this.section.setAttribute("aria-busy", "false");
  }

  draw(view, answer, plan) {
    this.hide();
    const seconds = secondsOf(answer.interval);
    this.all = seriesOf(answer.results, this.panel);
    this.seconds = seconds;
    this.zone = view.zone;
    this.setState(this.all.length ? "drawn" : "empty", answer);
    this.plan.textContent = plan;
    this.note.textContent = this.notesOn(view, answer).join(" ");
    if (!this.all.length) {
      const cure = "Nothing was written here between these times, or under another name.";
      this.say("empty", "No points in this range", cure, answer.query, null);
      return;
    }
    this.chartBox.hidden = this.table.hidden = false;
    const options = chartOptions(this.panel, view, answer.bounds, seconds);
    if (this.chart) this.chart.destroy();
    this.chart = new Chart(this.canvas, { type: "line", data: { datasets: datasetsOf(this.all, seconds) }, options });
    const label = `a chart of ${this.all.length} lines every ${answer.interval}; the table below it has its numbers`;
    this.canvas.setAttribute("aria-label", `${this.panel.title}: ${label}`);
    this.fillTable();
  }

  notesOn(view, answer) {
    const notes = [`Every ${answer.interval}.`];
    const [from, to] = answer.bounds;
    if (answer.refused) {
      const fault = answer.refused.fault;
      notes.push(`A shorter interval is refused (fault ${fault}): ${FAULTS[fault][0]}.`);
    }
    if (this.all.length && to * 1000 > Date.now()) {
      notes.push("The dashed part goes to the last bucket, which is unfinished.");
    }
    if ((zoneOffset(view.zone, from * 1000) / 1000) % this.seconds) {
      notes.push("Buckets begin at whole ones of UTC, not of the local clock.");
    }
    return notes;
  }

  setState(state, answer) {
    this.section.setAttribute("data-state", state);
    for (const name of ["from", "to", "interval"]) this.section.removeAttribute("data-" + name);
    if (!answer) return;
    this.section.setAttribute("data-from", answer.bounds[0]);
    this.section.setAttribute("data-to", answer.bounds[1]);
    this.section.setAttribute("data-interval", answer.interval);
  }

  /// Shows a trouble in place of the chart: its words, its cure, and the query.
  explain(error) {
    this.hide();
    if (this.chart) this.chart.destroy();
    this.chart = null;
    if (!(error instanceof Trouble)) throw error;
    this.setState(error.kind);
    const [words, cure] = FAULTS[error.fault] || [error.message, ""];
    if (error.kind === "stopped") {
      const advice = "Look whether the store runs: systemctl status tsdb. The page asks again.";
      this.say("stopped", "No answer: " + error.message, advice, error.query, null);
    } else if (error.fault) {
      this.say("refused", `Refused: ${words} (${error.message})`, cure, error.query, error.offset);
    } else {
      this.say("refused", "Refused: " + words, cure, error.query, null);
    }
  }

  say(kind, words, cure, query, offset) {
    this.message.hidden = false;
    this.message.setAttribute("data-kind", kind);
    this.message.replaceChildren(element("p", words), element("p", cure), markedQuery(query, offset));
  }

  fillTable() {
    const place = this.table.querySelector(".scroll");
    place.replaceChildren();
    if (this.table.open && this.all) place.append(tableOf(this.panel, this.all, this.seconds, this.zone));
  }

  /// Zooms to the part of the chart that the pointer is drawn over.
  listenForZoom() {
    let start = null;
    const box = element("div", undefined, { class: "zoom" });
    const offsetOf = (event) => event.clientX - this.chartBox.getBoundingClientRect().left;
    const momentAt = (offset) => this.chart.scales.x.getValueForPixel(offset) / 1000;
    this.chartBox.addEventListener("pointerdown", (event) => {
      if (!this.chart || event.button !== 0 || event.offsetY > this.chart.chartArea.bottom) return;
      start = offsetOf(event);
      this.chartBox.setPointerCapture(event.pointerId);
    });
    this.chartBox.addEventListener("pointermove", (event) => {
      if (start === null) return;
      const end = offsetOf(event);
      box.style.left = Math.min(start, end) + "px";
      box.style.width = Math.abs(end - start) + "px";
      this.chartBox.append(box);
    });
    this.chartBox.addEventListener("pointercancel", () => {
      start = null;
      box.remove();
    });
    this.chartBox.addEventListener("pointerup", (event) => {
      const from = start;
      const end = offsetOf(event);
      start = null;
      box.remove();
      if (from === null || !this.chart || Math.abs(end - from) < 8) return;
      const [a, b] = [momentAt(Math.min(from, end)), momentAt(Math.max(from, end))];
      changeView({ from: Math.round(a), to: Math.max(Math.round(b), Math.round(a) + 1) });
    });
  }
}

// ---- The page

let view = readView();
let panels = [];

function showAll() {
  for (const panel of panels) panel.show(view);
}

/// Changes the view and the address, and shows all panels anew.
function changeView(changes) {
  view = { ...view, ...changes };
  writeView(view);
  fillForm();
  showAll();
}

/// Moves the range by a part of its length, and lengthens it by a factor about its middle.
function moveView(part, factor) {
  const [from, to] = boundsOf(view);
  const middle = (from + to) / 2 + (to - from) * part;
  const half = Math.max(((to - from) / 2) * factor, 30);
  changeView({ from: Math.round(middle - half), to: Math.round(middle + half) });
}

function writeRange(from, to, zone) {
  return `${writeTime(from, zone, WHOLE)} to ${writeShortly(to, from, zone)}`;
}

function fillSelect(select, choices, chosen) {
  select.replaceChildren();
  for (const [value, text] of choices) select.append(new Option(text, value, false, value === String(chosen)));
}

function fillForm() {
  const form = document.getElementById("view").elements;
  const ranges = Object.entries(RANGES);
  if (view.from !== null) ranges.unshift(["", writeRange(view.from * 1000, view.to * 1000, view.zone)]);
  else if (!(view.range in RANGES)) ranges.unshift([view.range, view.range + " s"]);
  fillSelect(form.range, ranges, view.from === null ? view.range : "");
  const named = panels.flatMap((panel) => panel.panel.intervals || []);
  const intervals = new Set(["auto", ...INTERVALS, ...named, view.interval]);
  fillSelect(form.interval, [...intervals].map((interval) => [interval, interval]), view.interval);
  fillSelect(form.refresh, Object.entries(REFRESHES), view.refresh);
  fillSelect(form.zone, Object.entries(ZONES), view.zone);
}

function listenToForm() {
  const form = document.getElementById("view");
  form.addEventListener("submit", (event) => event.preventDefault());
  form.elements.range.addEventListener("change", (event) => {
    if (event.target.value) changeView({ range: event.target.value, from: null, to: null });
  });
  for (const name of ["interval", "refresh", "zone"]) {
    form.elements[name].addEventListener("change", (event) => changeView({ [name]: event.target.value }));
  }
  form.elements.earlier.addEventListener("click", () => moveView(-0.5, 1));
  form.elements.later.addEventListener("click", () => moveView(0.5, 1));
  form.elements.in.addEventListener("click", () => moveView(0, 0.5));
  form.elements.out.addEventListener("click", () => moveView(0, 2));
  form.elements.now.addEventListener("click", () => changeView({ from: null, to: null }));
}

/// Returns what is wrong with a panel of the file, or null.
function slipOf(panel) {
  for (const name of ["title", "query"]) if (typeof panel[name] !== "string") return `"${name}" is missing`;
  for (const part of ["$range", "$interval"]) if (!panel.query.includes(part)) return `its query lacks ${part}`;
  if (panel.scale !== undefined && !(panel.scale > 0)) return '"scale" is no number above 0';
  if (panel.refresh !== undefined && !(panel.refresh >= 0)) return '"refresh" is no number of seconds';
  const intervals = panel.intervals === undefined ? INTERVALS : panel.intervals;
  const isList = Array.isArray(intervals) && intervals.length > 0;
  if (isList && intervals.every((interval) => secondsOf(interval) > 0)) return null;
  return '"intervals" is no list such as ["1m","1h"]';
}

/// Returns the title and the panels of the file that the view names. Throws an error with one line if it is wrong.
async function loadPanels() {
  const name = `panels/${view.panels}.json`;
  const response = await fetch(name, { cache: "no-store" });
  if (!response.ok) throw new Error(`${name}: there is no such file (status ${response.status})`);
  let file;
  try {
    file = await response.json();
  } catch (error) {
    throw new Error(`${name}: ${error.message}`);
  }
  if (!Array.isArray(file.panels)) throw new Error(`${name}: "panels" is missing`);
  file.panels.forEach((panel, index) => {
    const slip = slipOf(panel);
    if (slip) throw new Error(`${name}: panel ${index}: ${slip}`);
  });
  return file;
}

async function start() {
  const place = document.getElementById("panels");
  fillForm();
  listenToForm();
  try {
    const file = await loadPanels();
    document.title = document.getElementById("title").textContent = file.title || "tsdb";
    panels = file.panels.map((panel) => new Panel(panel));
  } catch (error) {
    place.append(element("div", error.message, { class: "message", role: "alert" }));
    return;
  }
  place.replaceChildren(...panels.map((panel) => panel.section));
  fillForm();
  showAll();
  setInterval(() => {
    for (const panel of panels) if (!document.hidden && Date.now() >= panel.due) panel.show(view);
  }, 1000);
  window.addEventListener("popstate", () => {
    view = readView();
    fillForm();
    showAll();
  });
}

start();
