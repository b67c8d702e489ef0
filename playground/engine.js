// Calls the module: bytes in, bytes out. The module's pointers have 64 bits, so they are passed as BigInt.
"use strict";
const CAUSES = ["", "toobig", "cut", "toolong", "badbyte", "badword", "outofrange", "noend", "toomany", "samename",
  "noexperiment", "afterend", "backwards"];
const DONE = 0, FAULT = 1, NO_MEMORY = 3, ROOM = 5, ANSWER_BYTES = 24;
// The maximum size (bytes) of a room that is reused. A larger one would take memory in addition to the next report.
const MOST_KEPT = 1 << 25;
class Engine {
  constructor(instance) {
    this.calls = instance.exports;
    this.answer = this.room(ANSWER_BYTES);
    this.out = this.room(1 << 16);
  }
  resize(size) {
    this.free(this.out);
    this.out = {at: 0, size: 0};
    this.out = this.room(size);
  }
  room(size) {
    const at = Number(this.calls.malloc(BigInt(Math.max(size, 1))));
    if (!at) throw new Error("memory");
    return {at, size};
  }
  free(room) { this.calls.free(BigInt(room.at)); }
  put(bytes) {
    const room = this.room(bytes.length);
    new Uint8Array(this.calls.memory.buffer, room.at, bytes.length).set(bytes);
    return {at: room.at, size: bytes.length};
  }
  // Calls a function with the given arguments and a room, and again with a larger room if it was too small.
  call(name, ...given) {
    for (;;) {
      this.calls[name](...given, BigInt(this.out.at), BigInt(this.out.size), BigInt(this.answer.at));
      const view = new DataView(this.calls.memory.buffer, this.answer.at, ANSWER_BYTES);
      const status = view.getUint32(0, true), length = Number(view.getBigUint64(16, true));
      if (status === ROOM) {
        this.resize(length);
        continue;
      }
      const bytes = status === DONE ? new Uint8Array(this.calls.memory.buffer, this.out.at, length).slice() : new Uint8Array(0);
      if (this.out.size > MOST_KEPT) this.resize(1 << 16);
      return {status, cause: CAUSES[view.getUint32(4, true)], line: Number(view.getBigUint64(8, true)), bytes};
    }
  }
  withTexts(name, texts, ...more) {
    const held = texts.map((text) => this.put(text));
    try {
      return this.call(name, ...held.flatMap(({at, size}) => [BigInt(at), BigInt(size)]), ...more);
    } finally { held.forEach((room) => this.free(room)); }
  }
  alone(text) { return this.withTexts("dnlab_alone", [text]); }
  check(text) { return this.withTexts("dnlab_check", [text]); }
  // Returns what `--explain` prints after the line of the fault. If `runs` is 1, runs the scenario and explains the run too.
  explain(text, runs) { return this.withTexts("dnlab_explain", [text], runs ? 1 : 0); }
  version() { return new TextDecoder().decode(this.call("dnlab_version").bytes); }
}
// Returns the line that the program writes to standard error before the explanation.
function firstLine(found) {
  return found.status === FAULT ? `line ${found.line}: ${found.cause}\n` : found.status ? "memory\n" : "";
}
