// What tools/gate/check_playground does in a browser: typed.mjs KIND PROGRAM PAGE FOLDER < REQUEST > ANSWER (JSON); KIND is chromium or firefox, FOLDER is for its profile and pictures.
// What it does stands on its standard error, a line each, so that who waited in vain sees for what.
import fs from "node:fs";
import path from "node:path";
import {begin} from "./browsers.mjs";

const [kind, program, page, folder] = process.argv.slice(2), asked = JSON.parse(fs.readFileSync(0, "utf8")), faults = [];
const sleep = (ms) => new Promise((done) => setTimeout(done, ms));
const told = (what) => process.stderr.write(`${what}\n`);
told(`begins ${kind}`);
const browser = await begin(kind, program, fs.mkdtempSync(path.join(folder, `profile-${kind}-`)), faults), {value} = browser;
// Waits until something holds; how long it may take (ms). A question that is lost is asked again.
async function until(expression, patience = 20000) {
  const asked = () => value(expression, 5000).catch((why) => told(why.message));
  for (const end = Date.now() + patience; Date.now() < end; await sleep(15)) if (await asked()) return true;
  return false;
}
const textOf = (name) => value(`at(${JSON.stringify(name)}).textContent`);
async function typed(text, patience) {
  const turn = await value(`(at("text").value = ${JSON.stringify(text)}, run(), turn)`);
  return until(`+document.body.dataset.turn === ${turn}`, patience);
}
const keep = async (name) => fs.writeFileSync(path.join(folder, `${name}-${kind}.png`), await browser.picture());
const firsts = [];
// How long the first report takes (ms): several openings, since other work of the machine may delay one.
for (let k = 0; k < 3; k++) {
  told(`opens the page, time ${k + 1}`);
  await browser.go("about:blank");
  await browser.go(`file://${page}`);
  await until("document.body?.dataset.first || document.body?.dataset.failed");
  firsts.push(+await value("document.body.dataset.first"));
}
const answer = {first: Math.min(...firsts), runs: [], long: []};
told(`types ${asked.cases.length} texts`);
for (const text of asked.cases) {
  const isDone = await typed(text);
  answer.runs.push({isDone, report: await textOf("report"), said: await textOf("said")});
}
// Reports of millions of lines, by their checksums, with what the engine's memory has grown to.
for (const {name, text} of asked.peers) {
  told(`types ${name}`);
  const begun = Date.now(), isDone = await typed(text, 300000), took = Date.now() - begun;
  const sum = await value('crypto.subtle.digest("SHA-256", shown.found.bytes).then((sum) => [...new Uint8Array(sum)].map((it) => it.toString(16).padStart(2, "0")).join(""))');
  answer.long.push({name, isDone, took, sum, memory: await value("shown.memory"), state: await textOf("state"), drawn: await value('at("pictures").querySelectorAll("svg").length')});
}
// Sliders, two settings, a link, a trap, a stop.
told("moves sliders");
await typed(asked.slider);
answer.sliders = await value('at("sliders").textContent');
const moving = await value('(() => { const it = at("sliders").querySelector("input"); it.value = it.min; it.dispatchEvent(new Event("input")); return turn; })()');
await until(`+document.body.dataset.turn === ${moving}`);
answer.moved = await value('at("text").value');
await until('location.hash.startsWith("#s=")');
await sleep(200);
const link = await value("location.href");
told("keeps an experiment");
await typed(asked.two);
const chosen = (name) => `at("experiment").value = "${name}"; at("experiment").dispatchEvent(new Event("change"));`;
await value(`(() => { ${chosen("deep")} at("keep").click(); ${chosen("codel")} })()`);
answer.kept = await value('[...at("pictures").querySelectorAll(".counters")].map((it) => it.textContent.split(": ").slice(0, 2).join(": "))');
answer.svgs = await value('[...at("pictures").querySelectorAll("svg[role=img]")].map((it) => it.getAttribute("aria-label"))');
// The letters as they are shown: of pictures also by their scale.
answer.letters = await value('Math.min(...[...document.querySelectorAll("body *")].filter((it) => it.getClientRects().length && it.textContent.trim())'
  + '.map((it) => parseFloat(getComputedStyle(it).fontSize) * (it.ownerSVGElement ? it.ownerSVGElement.getScreenCTM().a : 1)))');
await value("scrollTo(0, 0)");
await keep("playground");
await value('at("drop").click()');
told("zooms");
await typed(asked.four);
// A pointer over the first picture, at a share of its width.
const pointed = (kind, share) => `(() => { const svg = at("pictures").querySelector("svg[role=img]"), box = svg.getBoundingClientRect(), wide = drawn[0].frame.wide;
  svg.dispatchEvent(new PointerEvent("pointer${kind}", {bubbles: true, button: 0, clientX: box.left + LEFT + ${share} * (wide - LEFT - RIGHT), clientY: box.top + 60})); })()`;
await value(pointed("move", 11.2 / 42.4));
answer.tip = await value('at("tip").textContent.split("\\n")');
await value('document.querySelector("[data-move=\\"+\\"]").click()');
answer.zoom = [await value("[...span]")];
await value('at("pictures").dispatchEvent(new KeyboardEvent("keydown", {key: "0"}))');
answer.zoom.push(await value("span"));
await value(pointed("down", 0.25));
await value(pointed("up", 0.5));
answer.dragged = await value("[...span]");
answer.topics = await value('[...document.querySelectorAll("optgroup")].map((it) => it.label)');
await typed(asked.unended);
answer.unended = [await textOf("said"), (await textOf("report")).trim().split("\n").at(-1)];
told("opens a lesson");
const before = await value("turn");
await value('location.hash = "#lesson=queue"');
await until(`+document.body.dataset.turn > ${before}`);
answer.lesson = [await textOf("lesson-title"), await value("location.hash"), await value('at("unfold").open'),
  await value('/\\d+ ms after it was sent/.exec(at("answer").textContent)[0].split(" after")[0]'), await value('at("sliders").children.length')];
await keep("lesson");
told("has the engine trap");
const left = await value("turn");
await value('worker.postMessage({turn: ++turn, module, text: null, traced: null})');
await until(`+document.body.dataset.turn > ${left}`);
answer.trapped = [await textOf("state"), await value("worker === null")];
answer.afterTrap = await typed(asked.cases[0]) && await textOf("report");
await value(`(at("text").value = ${JSON.stringify(asked.long)}, run(), 1)`);
answer.running = await textOf("state");
await browser.escape();
answer.stopped = [await textOf("state"), await value("worker === null")];
told("opens a link, as a phone");
await browser.go("about:blank");
await browser.narrow();
await browser.go(link);
await until("document.body?.dataset.first || document.body?.dataset.failed");
answer.linked = await value('at("text").value');
answer.wide = await value("[innerWidth, document.documentElement.scrollWidth]");
answer.unlabelled = await value('[...document.querySelectorAll("button, select, input, textarea")].filter((it) => !it.labels?.length && !it.textContent.trim() && !it.ariaLabel).length');
await keep("phone");
answer.faults = faults;
browser.close();
process.stdout.write(JSON.stringify(answer), () => process.exit(0));
