// Draws the page of `dnlab-view`: unpacks an experiment's columns, draws what is in sight of them, and draws anew as
// one zooms. Moments are nanoseconds, as numbers, which hold each whole one up to 2^53.
const TYPES = {i1: Int8Array, i2: Int16Array, i4: Int32Array, f8: Float64Array};
const SYMBOLS = ["circle", "square-open", "triangle-up", "diamond-open", "triangle-down-open", "cross", "star-open",
  "triangle-left", "triangle-right-open"];
const MARKS = {"sent": "circle-open", "delivered": "circle-open", "sent again": "triangle-up", "dropped": "x",
  "acknowledgement dropped": "cross", "loss": "x", "timeout": "triangle-down"};
const FORMS = ["", "-open", "-dot", "-open-dot"];
const heads = JSON.parse(document.getElementById("heads").textContent);
const at = (name) => document.getElementById(name);
// What is shown: one experiment, or two side by side; `now` is the side that is being worked on, `span` what is in sight (ns)
// and `until` the greatest end.
let now = null, sides = [], span = [0, 1], until = 1, turns = 0, drawing = 0, saving = 0;
// The maximum number of lines in a panel, and of flows with windows.
const MOST = 8, FLOWS = 16;

// ---- columns

async function unpack(place) {
  const text = atob(at("data-" + place).textContent);
  const bytes = new Uint8Array(text.length);
  for (let k = 0; k < bytes.length; k++) bytes[k] = text.charCodeAt(k);
  const whole = new Blob([bytes]).stream().pipeThrough(new DecompressionStream("deflate"));
  const buffer = await new Response(whole).arrayBuffer();
  return heads[place].blocks.map(([type, offset, length, isDelta]) => {
    const values = new TYPES[type](buffer, offset, length);
    if (!isDelta) return values;
    const sums = new Float64Array(length);
    for (let k = 0, sum = 0; k < length; k++) sums[k] = sum += values[k];
    return sums;
  });
}

// ---- words

function carried(serial) {
  const {who, kind, number, again, size} = now.table;
  const load = ["", `, byte ${number[serial]}`, `, acknowledges ${number[serial]}`][kind[serial]] || "";
  return `packet ${serial}: ${now.names[who[serial]]}${load}${again[serial] ? ", sent again" : ""}`
    + (size[serial] < 0 ? "" : `, ${size[serial]} bytes`);
}

// The moment so long behind another; -1 where it isn't known.
const behind = (moment, span) => span < 0 ? -1 : moment + span;

function journey(serial) {
  const {ended, fate, starts, pipe, arrival, finish, exit} = now.table, made = now.table.made[serial];
  const lines = [carried(serial), `made ${time(made)}`];
  for (let k = starts[serial]; k < starts[serial + 1]; k++) {
    const came = behind(made, arrival[k]);
    lines.push(`at ${now.pipes[pipe[k]]}: came ${time(came)}`
      + (finish[k] < 0 ? "" : `, served ${time(behind(came, finish[k]))}`)
      + (exit[k] < 0 ? "" : `, left ${time(behind(came, exit[k]))}`));
  }
  const end = behind(made, ended[serial]), spent = made < 0 || end < 0 ? "" : `, ${time(end - made)} after it was made`;
  const how = fate[serial] > 1 ? `dropped (${now.fates[fate[serial]]})` : now.fates[fate[serial]];
  lines.push(fate[serial] ? `${how} ${time(end)}${spent}` : "still under way at the end");
  return lines;
}

function tell(serial) {
  const known = Number.isInteger(serial) && serial >= 0 && serial < now.table.made.length;
  const of = sides.length > 1 && serial !== null ? `${now.name}: ` : "";
  at("journey").textContent = of + (known ? journey(serial).join("\n") : serial === null ? ""
    : `there is no packet ${serial}: they are 0 to ${now.table.made.length - 1}`);
}

// ---- traces

// What came in windows of one of 1, 2, 5, 10 .. ns, of which some fifty lie between two moments: `x` are moments in order, `y`
// what had come by then, `ended` the last moment.
function windowed(x, y, begin, end, ended) {
  let every = 10 ** Math.floor(Math.log10(Math.max((end - begin) / 50, 1)));
  every *= [1, 2, 5, 10].find((factor) => factor * every >= (end - begin) / 50) || 10;
  const before = (moment) => { const place = lower(x, moment); return place ? y[place - 1] : 0; };
  const windows = [];
  for (let k = Math.floor(begin / every); k * every < Math.min(end, ended); k++) {
    const to = Math.min((k + 1) * every, ended);
    windows.push({from: k * every, to, came: before((k + 1) * every < ended ? to : to + 1) - before(k * every)});
  }
  return {every, windows};
}

// Bits (or packets) a second in windows, as `dnlab-summary --every` has them.
function rateOf(one, isBytes, begin, end) {
  const {every, windows} = windowed(now.columns[one.x], now.columns[one.y], begin, end, now.ended);
  const found = {x: [], y: [], text: [], every};
  for (const {from, to, came} of windows) {
    const rate = came / (to - from) * (isBytes ? 8e3 : 1e9);
    found.x.push(from, to);
    found.y.push(rate, rate);
    const text = `${one.label}: ${came} ${isBytes ? "bytes" : "packets"} from ${time(from)} to ${time(to)}`;
    found.text.push(text, text);
  }
  return found;
}

function pointsOf(panel, one, begin, end) {
  const x = now.columns[one.x], scale = inSegments(panel) ? panel.segment : 1;
  const y = scale === 1 ? now.columns[one.y] : now.columns[one.y].map((value) => value / scale);
  const packets = one.packets < 0 ? null : now.columns[one.packets];
  const kept = inSight(x, y, one.form === "level" ? "steps" : one.form, begin, end);
  return {x: kept.map((k) => x[k]), y: kept.map((k) => y[k]), customdata: packets && kept.map((k) => packets[k]),
    text: kept.map((k) => `${one.label}: ${y[k]}<br>` + (packets ? journey(packets[k]).join("<br>") : time(x[k])))};
}

// Whether a panel of windows is asked for in segments.
const inSegments = (panel) => panel.what === "window" && panel.segment > 0 && at("unit").value === "segments";

// The number of the flow that a line is of; undefined of others.
const flowOf = (label) => (label.match(/^(?:flow|cwnd|effective|ssthresh|loss|timeout) ([0-9]+)/) || [])[1];

// Lines that belong to no sender: pipes, and all that is under way.
const isCommon = (label) => /^(pipe |through |rate of |limit of |delay line of |in flight)/.test(label);

// The series of a panel without those of acknowledgements, unless these are asked for, or there are no others.
function wantedOf(panel) {
  const others = panel.series.filter((one) => !one.ack);
  return at("acks").checked || !others.some((one) => one.form !== "level") ? panel.series : others;
}

// As many lines as can be told apart, and what goes with them: acknowledgements are left out first, then the shortest.
function fewest(panel) {
  const lines = wantedOf(panel).filter((one) => !one.under && one.form !== "marks" && one.form !== "level");
  const length = (one) => now.columns[one.x].length;
  const kept = new Set([...lines].sort((a, b) => a.ack - b.ack || length(b) - length(a))
    .slice(0, panel.what === "window" ? FLOWS : MOST).map((one) => one.label));
  panel.left = lines.length - kept.size;
  return wantedOf(panel).filter((one) => one.form === "level" || kept.has(one.under || one.label)
    || (one.form === "marks" && (panel.what !== "window" || kept.has(`cwnd ${flowOf(one.label)}`))));
}

// The series of a panel that are drawn: of one flow, or of all. Of bytes over time one flow is drawn, the first if all are
// asked for.
function chosenOf(panel) {
  const flow = at("flow").value;
  panel.left = 0;
  if (panel.what === "sequence") {
    panel.flow = flow || (panel.series.length ? panel.series[0].label.split(": ")[0] : "");
    return wantedOf(panel).filter((one) => one.label.startsWith(panel.flow + ": "));
  }
  if (!flow) return panel.what === "queue" ? wantedOf(panel) : fewest(panel);
  return wantedOf(panel).filter((one) => isCommon(one.label) || flowOf(one.label) === flow.split(" ")[1]);
}

// What a series marks, whoever's it is.
const kindOf = (one) => one.label.split(": ")[1] || one.label.replace(/ [0-9]+$/, "");

// The symbol of one of a panel's series: told apart without colour also among several of one kind.
function symbolOf(own, place) {
  const kind = kindOf(own[place]);
  if (!MARKS[kind]) return SYMBOLS[place % SYMBOLS.length];
  return MARKS[kind] + FORMS[own.slice(0, place).filter((one) => kindOf(one) === kind).length % FORMS.length];
}

// Thresholds are dotted and settings of pipes have long dashes, each of several in its own way, as other lines have theirs.
function dashOf(own, place) {
  const one = own[place], before = own.slice(0, place), turn = before.filter((other) => kindOf(other) === kindOf(one)).length;
  if (one.form === "level") return `14px,${5 + 4 * turn}px`;
  if (one.label.startsWith("effective")) return "20px,2px";
  if (one.under) return turn ? `2px,${3 + 3 * turn}px` : "dot";
  const dashes = DASHES.filter((dash) => dash !== "dot");
  return dashes[before.filter((other) => !other.under && other.form !== "level").length % dashes.length];
}

function traceOf(panel, own, place, begin, end) {
  const one = own[place];
  const isLevel = one.form === "level", isRate = panel.what === "rate" && !isLevel;
  const isLine = one.form === "steps" || isLevel || isRate;
  const found = isRate ? rateOf(one, panel.unit === "Mbit/s", begin, end) : pointsOf(panel, one, begin, end);
  const parent = one.under ? own.findIndex((other) => other.label === one.under) : place;
  const colour = COLOURS[Math.max(parent, 0) % COLOURS.length];
  const size = one.form === "marks" ? 9 : 5;
  return {...found, x: found.x.map((moment) => moment / now.unit[0]), type: "scatter", name: one.label,
    hoverinfo: "text", mode: isLine ? "lines" : "markers", cliponaxis: isLine,
    line: {shape: isRate ? "linear" : "hv", dash: dashOf(own, place), color: colour,
      width: one.label.startsWith("effective") ? 4 : one.under ? 1 : 1.5},
    marker: {symbol: symbolOf(own, place), size, color: colour}};
}

function layoutOf(panel, top, begin, end) {
  const scale = now.unit[0], coarse = matchMedia("(pointer: coarse)").matches;
  const unit = inSegments(panel) ? "segments" : panel.unit;
  const axis = {gridcolor: "#ddd", linecolor: "#111", zeroline: false, ticks: "outside", ticklen: 4};
  return {margin: {l: 66, r: 8, t: 8, b: 44}, showlegend: true, dragmode: coarse ? false : "zoom", hovermode: "closest",
    legend: {orientation: "h", x: 0, y: 1.02, yanchor: "bottom", font: {size: 11}}, font: {size: 12, color: "#111"},
    hoverlabel: {align: "left"},
    xaxis: {...axis, range: [begin / scale, end / scale], title: {text: `Time (${now.unit[1]})`, standoff: 4}},
    yaxis: {...axis, fixedrange: true, rangemode: panel.what === "sequence" ? "normal" : "tozero",
      title: {text: panel.quantity + (unit ? ` (${unit})` : "")}, ...(top ? {range: [0, 1.05 * top]} : {})}};
}

// ---- what is in sight

function tracesOf(panel, begin, end) {
  const own = chosenOf(panel);
  return own.map((one, place) => traceOf(panel, own, place, begin, end));
}

// The greatest value of what is drawn.
const topOf = (drawn) => drawn.reduce((top, traces) => traces.reduce((most, trace) =>
  trace.y.reduce((one, value) => value > one ? value : one, most), top), 0);

function paint(panel, traces, top, begin, end) {
  const every = panel.what === "rate" && traces.length && traces[0].every ? `, in each ${time(traces[0].every)}` : "";
  const left = panel.left ? ` (${panel.left} lines more are left out: choose a flow)` : "";
  const of = panel.what === "sequence" && panel.flow ? `: ${panel.flow}` : "";
  panel.heading.textContent = panel.title + of + every + left;
  Plotly.react(panel.place, traces, layoutOf(panel, top, begin, end), {responsive: true, displaylogo: false,
    displayModeBar: false, doubleClick: false});
  if (!panel.isHeard) listen(panel);
  panel.isHeard = true;
}

// Draws one panel after the other, so that the first stand at once; what is asked for meanwhile takes their place.
async function draw() {
  const turn = ++drawing, [begin, end] = span;
  at("range").textContent = `in sight: ${time(begin)} to ${time(end)}`;
  for (let k = 0; k < sides[0].panels.length; k++) {
    const drawn = sides.map((side) => { now = side; return side.panels[k].place ? tracesOf(side.panels[k], begin, end) : []; });
    // Two that stand side by side have one frame, so that they compare.
    const top = sides.length > 1 && sides[0].panels[k].what !== "sequence" ? topOf(drawn) : 0;
    sides.forEach((side, place) => {
      now = side;
      if (side.panels[k].place) paint(side.panels[k], drawn[place], top, begin, end);
    });
    now = sides[0];
    document.body.dataset.first ||= Math.round(performance.now());
    await new Promise((next) => setTimeout(next));
    if (turn !== drawing) return;
  }
  // After the last of many steps, because browsers limit the number of these.
  clearTimeout(saving);
  const others = sides.slice(1).map((side) => `,${side.name}`).join("");
  saving = setTimeout(() => history.replaceState(null, "", `#${sides[0].name},${Math.round(begin)},${Math.round(end)}${others}`), 300);
  document.body.dataset.drawn = sides[0].name + others;
  document.body.dataset.opened ||= Math.round(performance.now());
}

// Shows a span of time, within the experiment's and not below 10 ns.
function show(begin, end) {
  const width = Math.min(Math.max(end - begin, 10), until);
  const first = Math.min(Math.max(begin, 0), until - width);
  span = [first, first + width];
  return draw();
}

function zoom(factor) {
  const [begin, end] = span, middle = (begin + end) / 2, half = (end - begin) / 2 * factor;
  show(middle - half, middle + half);
}

function move(share) {
  const [begin, end] = span, by = (end - begin) * share;
  show(begin + by, end + by);
}

const whole = () => show(0, until);

function frame(panel, column, before) {
  panel.heading = document.createElement("h2");
  panel.heading.textContent = panel.title;
  const words = document.createElement("p");
  words.textContent = panel.words;
  column.append(panel.heading, panel.words ? words : "");
  if (!panel.series.length) return;
  panel.place = document.createElement("div");
  panel.place.className = "panel";
  panel.place.id = before + panel.what;
  panel.place.setAttribute("role", "img");
  panel.place.setAttribute("aria-label", `${panel.title}: ${panel.series.map((one) => one.label).join(", ")}`);
  column.append(panel.place);
}

function listen(panel) {
  const side = now;
  panel.place.on("plotly_relayout", (change) => {
    const scale = side.unit[0];
    if (change["xaxis.range[0]"] !== undefined) show(change["xaxis.range[0]"] * scale, change["xaxis.range[1]"] * scale);
  });
  panel.place.on("plotly_doubleclick", whole);
  panel.place.on("plotly_click", (event) => {
    if (event.points[0].customdata === undefined) return;
    now = side;
    tell(event.points[0].customdata);
    now = sides[0];
  });
}

async function sideOf(place) {
  const head = heads[place], columns = await unpack(place);
  const table = Object.fromEntries(Object.entries(head.table).map(([name, block]) => [name, columns[block]]));
  return {...head, place, columns, table, panels: head.panels.map((panel) => ({...panel}))};
}

// Shows an experiment, or two side by side, from a moment to another (all of them where there is no range).
async function choose(place, range, beside = null) {
  const turn = ++turns, loaded = [await sideOf(place)];
  if (beside !== null && beside !== place) loaded.push(await sideOf(beside));
  // Another was chosen meanwhile.
  if (turn !== turns) return;
  document.querySelectorAll(".panel").forEach(Plotly.purge);
  [sides, now, until] = [loaded, loaded[0], Math.max(...loaded.map((side) => side.until))];
  const {unit} = sides.find((side) => side.until === until);
  sides.forEach((side) => { side.unit = unit; });
  at("experiment").value = place;
  at("beside").value = sides.length > 1 ? beside : "";
  at("about").textContent = sides.map((side) => (sides.length > 1 ? `${side.name}: ` : "") + side.about).join("\n");
  at("notes").replaceChildren(...sides.flatMap((side) => side.notes.map((text) =>
    Object.assign(document.createElement("li"), {textContent: (sides.length > 1 ? `${side.name}: ` : "") + text}))));
  const flows = [...new Set(sides.flatMap((side) => side.panels[0].series.map((one) => one.label.split(": ")[0])))];
  const flow = at("flow").value;
  at("flow").replaceChildren(new Option("all flows", ""), ...flows.map((one) => new Option(one, one)));
  at("flow").value = flows.includes(flow) ? flow : "";
  at("flow").disabled = flows.length < 2;
  at("acks").disabled = !sides.some((side) => side.panels.some((panel) => panel.series.some((one) => one.ack)));
  at("unit").disabled = !sides.some((side) => side.panels.some((panel) => panel.segment));
  at("packet").value = "";
  tell(null);
  document.body.classList.toggle("two", sides.length > 1);
  at("panels").replaceChildren(...sides.map((side, k) => {
    const column = document.createElement("div");
    column.className = "side";
    if (sides.length > 1) column.append(Object.assign(document.createElement("h2"), {textContent: side.name}));
    side.panels.forEach((panel) => frame(panel, column, k ? "panel-beside-" : "panel-"));
    return column;
  }));
  await show(...(range || [0, until]));
}

// `#NAME`, `#NAME,FROM,TO` or `#NAME,FROM,TO,BESIDE`, in ns, says what is shown first.
function byAddress() {
  const [name, from, to, other] = decodeURIComponent(location.hash.slice(1)).split(",");
  const placeOf = (wanted) => heads.findIndex((head) => head.name === wanted);
  const beside = placeOf(other);
  return choose(Math.max(placeOf(name), 0), to && +to > +from ? [+from, +to] : null, beside < 0 ? null : beside);
}

const besides = () => at("beside").value === "" ? null : +at("beside").value;
const KEYS = {"+": () => zoom(0.5), "=": () => zoom(0.5), "-": () => zoom(2), "0": whole, ArrowLeft: () => move(-0.5),
  ArrowRight: () => move(0.5)};
heads.forEach((head, place) => at("experiment").append(new Option(head.name, place)));
at("tools").addEventListener("submit", (event) => event.preventDefault());
at("beside").append(new Option("nothing", ""), ...heads.map((head, place) => new Option(head.name, place)));
at("beside").disabled = heads.length < 2;
at("experiment").addEventListener("change", () => choose(+at("experiment").value, null, besides()));
at("beside").addEventListener("change", () => choose(+at("experiment").value, span, besides()));
at("unit").addEventListener("change", () => draw());
at("flow").addEventListener("change", () => draw());
at("acks").addEventListener("change", () => draw());
at("packet").addEventListener("input", () => tell(at("packet").value === "" ? null : +at("packet").value));
for (const [name, key] of [["in", "+"], ["out", "-"], ["earlier", "ArrowLeft"], ["later", "ArrowRight"], ["whole", "0"]]) {
  at(name).addEventListener("click", KEYS[key]);
}
document.addEventListener("keydown", (event) => {
  const isTyping = ["INPUT", "SELECT"].includes(event.target.tagName);
  if (KEYS[event.key] && now && !isTyping && !event.ctrlKey && !event.metaKey && !event.altKey) {
    event.preventDefault();
    KEYS[event.key]();
  }
});
window.addEventListener("hashchange", byAddress);
if (typeof Plotly === "undefined") at("panels").textContent = "dnlab-plotly.js isn't beside this page: copy it there too, or make the page with --single";
else byAddress().catch((fault) => { at("panels").textContent = `This page can't be drawn: ${fault}`; });
