// What tools/gate/check_playground asks of the module and of the page's scripts, in Node: playground_node.mjs MODULE ROOT < REQUEST > ANSWER (JSON).
import fs from "node:fs";
import path from "node:path";
import vm from "node:vm";

const [module, root] = process.argv.slice(2);
const files = ["python/dnlab/plot/page.shared.js", ...["engine", "scenario", "report"].map((name) => `playground/${name}.js`)];
const names = "{Engine, firstLine, slidersOf, filled, moved, tracing, readReport, panelsOf}";
const page = new vm.Script(files.map((file) => fs.readFileSync(path.join(root, file), "utf8")).join("\n") + `\n;(${names})`).runInThisContext();
const asked = JSON.parse(fs.readFileSync(0, "utf8")), compiled = await WebAssembly.compile(fs.readFileSync(module));
const made = async () => new page.Engine(await WebAssembly.instantiate(compiled, {}));
let engine = await made();

const plain = new TextDecoder(), bytesOf = (text) => Buffer.from(text, "base64");
function ran({text, isCheck}) {
  const bytes = bytesOf(text), found = isCheck ? engine.check(bytes) : engine.alone(bytes);
  const said = page.firstLine(found) + plain.decode(engine.explain(bytes, !isCheck && !found.status).bytes);
  return {status: found.status, report: Buffer.from(found.bytes).toString("base64"), said};
}
const runs = asked.cases.map(ran);
// How much memory there is after each of some runs of a text.
const grown = [];
engine = await made();
for (let k = 0; k < asked.again.times; k++) {
  engine.alone(bytesOf(asked.again.text));
  grown.push(engine.calls.memory.buffer.byteLength);
}
// A module that is given no memory says so, and goes on.
const bounded = new page.Engine(await WebAssembly.instantiate(compiled, {}));
bounded.calls.memory.grow(0);
const blocks = asked.blocks.map((sizes) => {
  const before = Number(bounded.calls.malloc(16n)), held = sizes.map((size) => Number(bounded.calls.malloc(BigInt(size))));
  const apart = held.every((at, k) => held.every((other, l) => k === l || at + sizes[k] <= other || other + sizes[l] <= at));
  [...held].sort((a, b) => (a * 7919) % 101 - (b * 7919) % 101).forEach((at) => bounded.calls.free(BigInt(at)));
  const again = Number(bounded.calls.malloc(BigInt(sizes.reduce((sum, size) => sum + size, 0))));
  bounded.calls.free(BigInt(again));
  bounded.calls.free(BigInt(before));
  return {apart, aligned: held.every((at) => at % 16 === 0), first: held[0], again};
});
const sliders = asked.sliders.map((text) => { const found = page.slidersOf(text); return {...found, filled: page.filled(text, found.sliders)}; });
const moved = page.moved(asked.sliders[0], page.slidersOf(asked.sliders[0]).sliders[0], 7);
// What is drawn of texts: all of them, and of spans of time (ns).
function drawn({text, begin, end, acks}) {
  const words = plain.decode(bytesOf(text)), traced = engine.alone(new TextEncoder().encode(page.tracing(words)));
  return page.readReport(plain.decode(traced.bytes), words).map((one) => ({name: one.name, counters: one.counters, last: one.last, panels: page.panelsOf(one, begin, end, acks)}));
}
const panels = asked.drawn.map(drawn);
process.stdout.write(JSON.stringify({runs, grown, blocks, sliders, moved, panels, version: engine.version()}));
