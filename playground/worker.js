// Runs the engine in its own thread. The page stops a run by terminating the thread, and terminates it after a trap too.
"use strict";
let engine = null;
// The maximum length (bytes) of a report that is drawn. A longer one is only shown and saved, because its columns would take
// ten times as much memory.
const MOST_DRAWN = 30_000_000;
onmessage = async ({data: {turn, module, text, traced}}) => {
  try {
    engine ||= new Engine(await WebAssembly.instantiate(module, {}));
    const begun = performance.now(), found = engine.alone(text), spent = performance.now() - begun;
    const said = engine.explain(text, !found.status);
    // The pictures need the time at which each packet was created. Only `trace` records it, so this is a second run.
    const isLong = found.bytes.length > MOST_DRAWN, more = found.status || isLong || !traced ? null : engine.alone(traced);
    const drawn = isLong ? new Uint8Array(0) : more && !more.status ? more.bytes : found.bytes.slice();
    // The bytes are transferred, not copied, because there may be no memory for two copies of a long report.
    postMessage({turn, found, spent, said: said.bytes, drawn, isLong, version: engine.version(), memory: engine.calls.memory.buffer.byteLength},
      [found.bytes.buffer, drawn.buffer]);
  } catch (fault) {
    postMessage({turn, failed: String(fault && fault.message || fault)});
  }
};
