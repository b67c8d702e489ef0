// The page. It runs the text in a worker after each change, and shows the result next to an experiment that was kept.
"use strict";
const at = (name) => document.getElementById(name), coded = new TextEncoder(), plain = new TextDecoder();
const MOST_SHOWN = 200_000, PAUSE = 120;
const examples = JSON.parse(at("examples").textContent);
const NONE = "choose an example";
let worker = null, module = null, turn = 0, waiting = 0, shown = null, kept = null, asked = "";

// ---- runs

function stop(why) {
  worker?.terminate();
  worker = null;
  at("stop").disabled = true;
  if (why) say(why);
}
function start() {
  worker = new Worker(URL.createObjectURL(new Blob([at("engine").textContent], {type: "text/javascript"})));
  worker.onmessage = ({data}) => answered(data);
  worker.onerror = (event) => stop(`the engine failed: ${event.message}`);
}
const say = (text) => { at("state").textContent = text; };
// Runs the current text, and stops a run that is still in progress.
function run() {
  clearTimeout(waiting);
  const text = at("text").value, {sliders, wrong} = slidersOf(text);
  showSliders(sliders);
  nameText(text);
  keepLink(text);
  if (!at("stop").disabled) stop();
  if (wrong.length) {
    shown = null;
    at("said").textContent = wrong.join("\n");
    return say("not run: a slider is wrong");
  }
  if (!worker) start();
  at("stop").disabled = false;
  say("running ..");
  asked = filled(text, sliders);
  worker.postMessage({turn: ++turn, module, text: coded.encode(asked), traced: coded.encode(tracing(asked))});
}
function answered(data) {
  at("stop").disabled = true;
  if (data.failed) {
    // The engine's memory may be inconsistent, so the next run starts a new engine.
    stop(`the engine ended: ${data.failed}`);
    document.body.dataset.turn = data.turn;
    return;
  }
  if (data.turn !== turn) return;
  shown = {...data, experiments: data.found.status ? [] : readReport(plain.decode(data.drawn), asked)};
  at("version").textContent = `dnlab ${data.version}`;
  show();
  document.body.dataset.turn = data.turn;
  document.body.dataset.first ||= Math.round(performance.now());
}

// ---- results

function show() {
  const {found, said, spent} = shown;
  at("said").textContent = firstLine(found) + plain.decode(said);
  at("report").textContent = plain.decode(found.bytes.subarray(0, MOST_SHOWN)) + (found.bytes.length > MOST_SHOWN ? "\n.. and more: download it" : "");
  say(found.status ? "no report: the scenario has a fault, which is explained below it" : `ran in ${spent.toFixed(1)} ms${shown.isLong ? "; the report is too long to be drawn" : ""}`);
  const names = shown.experiments.map((one) => one.name), chosen = at("experiment").value;
  at("experiment").replaceChildren(...names.map((name) => new Option(name, name)));
  if (names.includes(chosen)) at("experiment").value = chosen;
  at("which").hidden = names.length < 2;
  pictures();
}
function chosenOf(experiments) {
  return experiments.find((one) => one.name === at("experiment").value) || experiments[0];
}
function pictures() {
  const sides = [kept && ["kept", kept], shown && ["now", chosenOf(shown.experiments)]].filter((it) => it && it[1]);
  const until = Math.max(1, ...sides.map(([, one]) => one.last)), [begin, end] = span && span[1] <= until ? span : [0, until];
  at("pictures").className = sides.length > 1 ? "two" : "one";
  const panels = sides.map(([, one]) => panelsOf(one, begin, end, at("acks").checked)), wide = widthOf();
  const titles = [...new Set(panels.flat().map((panel) => panel.title))];
  drawn = [];
  at("tip").hidden = true;
  at("pictures").innerHTML = sides.map(([side, one]) => `<p class="counters">${sides.length > 1 ? `<b>${side}</b>: ` : ""}${escaped(countersOf(one))}</p>`).join("")
    + titles.map((title) => panels.map((own) => {
      const panel = own.find((it) => it.title === title), most = greatest(panels.flat().filter((it) => it.title === title));
      if (!panel) return "<div></div>";
      const frame = {begin, end, until, most: 1.05 * most, wide};
      return `<div data-place="${drawn.push({panel, frame}) - 1}">${svgOf(panel, frame)}</div>`;
    }).join("")).join("");
}
// Returns the width of a picture (px), which is that of a column.
const widthOf = () => Math.max(Math.floor(parseFloat(getComputedStyle(at("pictures")).gridTemplateColumns)) || at("pictures").clientWidth, 240);
function countersOf(one) {
  const [made, delivered, held, ...drops] = one.counters || [];
  return `${one.name}: ${made} packets made, ${delivered} delivered, ${drops.reduce((sum, it) => sum + it, 0)} dropped, ${held} in flight at the end${one.isSpent ? "; its steps ran out" : ""}`;
}

// ---- sliders

function showSliders(sliders) {
  const same = [...at("sliders").children].map((it) => it.dataset.name).join() === sliders.map((it) => it.name).join();
  if (!same) at("sliders").replaceChildren(...sliders.map(sliderOf));
  sliders.forEach((slider, place) => {
    const [input, output] = at("sliders").children[place].querySelectorAll("input, output");
    Object.assign(input, {min: slider.least, max: slider.most, step: slider.step});
    if (+input.value !== slider.value) input.value = slider.value;
    output.textContent = slider.value;
  });
}
function sliderOf({name, least, most, step, value}) {
  const label = document.createElement("label"), input = document.createElement("input"), output = document.createElement("output");
  Object.assign(input, {type: "range", min: least, max: most, step, value});
  input.id = `slider-${name}`;
  input.setAttribute("aria-label", name);
  Object.assign(label, {htmlFor: input.id});
  output.htmlFor = input.id;
  label.dataset.name = name;
  label.append(`${name} `, input, " ", output);
  input.addEventListener("input", () => {
    const slider = slidersOf(at("text").value).sliders.find((one) => one.name === name);
    if (slider) at("text").value = moved(at("text").value, slider, input.value);
    run();
  });
  return label;
}

// ---- links, copies, files

async function packed(text) {
  const stream = new Blob([text]).stream().pipeThrough(new CompressionStream("deflate-raw"));
  const bytes = new Uint8Array(await new Response(stream).arrayBuffer());
  return btoa(Array.from(bytes, (byte) => String.fromCharCode(byte)).join("")).replace(/\+/g, "-").replace(/\//g, "_").replace(/=+$/, "");
}
async function unpacked(word) {
  const bytes = Uint8Array.from(atob(word.replace(/-/g, "+").replace(/_/g, "/")), (sign) => sign.charCodeAt(0));
  return new Response(new Blob([bytes]).stream().pipeThrough(new DecompressionStream("deflate-raw"))).text();
}
let linked = "";
async function keepLink(text) {
  const of = lesson ? `lesson=${lesson.name}` : "", word = lesson?.text === text ? "" : `s=${await packed(text)}`;
  if (text !== at("text").value) return;
  linked = `#${[of, word].filter(Boolean).join("&")}`;
  history.replaceState(null, "", linked);
}
// Reads the lesson and the text from the address. Returns true if it has one of them.
async function fromLink() {
  const [, name, word] = /^#(?:lesson=([\w-]+))?&?(?:s=([\w-]+))?$/.exec(location.hash) || [];
  if ((!name && !word) || location.hash === linked) return false;
  showLesson(name);
  if (!word && !lesson) return false;
  span = null;
  try {
    at("text").value = word ? await unpacked(word) : lesson.text;
    return true;
  } catch {
    say("the address has no valid scenario");
    return false;
  }
}
async function copy(text, what) {
  try {
    await navigator.clipboard.writeText(text);
    say(`${what} copied`);
  } catch {
    say(`this browser doesn't allow pages to copy: select the ${what} and copy it`);
  }
}
function download(bytes, name) {
  const link = document.createElement("a");
  link.href = URL.createObjectURL(new Blob([bytes], {type: "text/plain"}));
  link.download = name;
  link.click();
  setTimeout(() => URL.revokeObjectURL(link.href), 10_000);
}
const scenario = () => filled(at("text").value, slidersOf(at("text").value).sliders);

// ---- examples

function listExamples() {
  at("example").append(new Option(NONE, ""));
  for (const [topic, texts] of Object.entries(examples)) {
    const group = Object.assign(document.createElement("optgroup"), {label: topic});
    group.append(...Object.entries(texts).map(([name, text]) => new Option(name, text)));
    at("example").append(group);
  }
}
// Selects the text in the list of examples, if it is one of them.
const nameText = (text) => { at("example").value = [...at("example").options].some((it) => it.value === text) ? text : ""; };
function showText(text) {
  at("text").value = text;
  span = null;
  run();
}

// ---- the page

function listen() {
  at("text").addEventListener("input", () => { clearTimeout(waiting); waiting = setTimeout(run, PAUSE); });
  at("example").addEventListener("change", () => { if (at("example").value) { showLesson(null); showText(at("example").value); } });
  at("again").addEventListener("click", () => showText(lesson.text));
  at("acks").addEventListener("change", pictures);
  at("experiment").addEventListener("change", () => { span = null; pictures(); });
  at("stop").addEventListener("click", () => stop("stopped"));
  at("keep").addEventListener("click", () => { kept = chosenOf(shown?.experiments || []) || kept; at("drop").disabled = !kept; pictures(); });
  at("drop").addEventListener("click", () => { kept = null; at("drop").disabled = true; pictures(); });
  at("copy-link").addEventListener("click", () => copy(location.href, "link"));
  at("copy-scenario").addEventListener("click", () => copy(scenario(), "scenario"));
  at("copy-report").addEventListener("click", () => copy(shown ? plain.decode(shown.found.bytes) : "", "report"));
  at("save-scenario").addEventListener("click", () => download(scenario(), "scenario.txt"));
  at("save-report").addEventListener("click", () => download(shown ? shown.found.bytes : "", "report.txt"));
  addEventListener("hashchange", async () => { if (await fromLink()) run(); });
  addEventListener("resize", pictures);
  addEventListener("keydown", (event) => {
    if (event.key === "Escape" && !at("stop").disabled) stop("stopped");
    if (event.key === "Enter" && event.ctrlKey) run();
  });
}
async function begin() {
  const text = atob(at("module").textContent.trim());
  module = await WebAssembly.compile(Uint8Array.from(text, (sign) => sign.charCodeAt(0)));
  listExamples();
  listLessons();
  listen();
  listenToPictures();
  if (!(await fromLink())) at("text").value = Object.values(Object.values(examples)[0])[0];
  run();
}
begin().catch((fault) => { say(`this browser can't run it: ${fault}`); document.body.dataset.failed = String(fault); });
