// Reads the experiments of a report into columns for the pictures: who sent which packets, and when they arrived and left.
"use strict";
const TO_ACKS = /^flow \d+ acks$/;
// Returns what only the scenario has, by experiment: trains, flows, and the settings of the pipes.
function plansOf(text) {
  const plans = new Map();
  let plan = null;
  for (const line of text.split("\n")) {
    const words = line.trim().split(/ +/), at = +words[0].slice(1);
    if (words[0] === "experiment") plans.set(words[1], plan = {trains: [], flows: new Map(), pipes: new Map()});
    else if (!plan || words[0][0] !== "@") continue;
    else if (words[1] === "train") plan.trains.push({name: `train ${words[2]}`, load: words.slice(3, 9).join(" "), at, count: +words[10], gap: +words[12]});
    else if (words[1] === "flow") plan.flows.set(words[2], {at, smss: +words[words.indexOf("smss") + 1]});
    else if (words[1] === "pipe" && words[3] === "config") listed(plan.pipes, words[2]).push({at, rate: rateIn(words), slots: slotsIn(words)});
  }
  return plans;
}
const listed = (map, key) => map.get(key) || map.set(key, []).get(key);
// Returns the rate of a pipe in Mbit/s, or NaN if it has none.
function rateIn(words) {
  const found = /^(\d+)(?:([KMG]?)(bit|Byte)\/s)?$/.exec(words[words.indexOf("bw") + 1]), scale = {K: 1e3, M: 1e6, G: 1e9};
  return words.includes("bw") && found && +found[1] ? found[1] * (scale[found[2]] || 1) * (found[3] === "Byte" ? 8 : 1) / 1e6 : NaN;
}
// Returns the limit of a queue in packets (default 50), or NaN if the limit is in bytes.
const slotsIn = (words) => words.includes("queue") ? Number(words[words.indexOf("queue") + 1]) : 50;

function readReport(report, text) {
  const all = [], plans = plansOf(text);
  let one = null;
  for (const line of report.split("\n")) {
    const words = line.split(" ");
    if (words[0] === "experiment") all.push(one = begun(words[1], plans.get(words[1])));
    else if (one && words[0] === "counters") one.counters = words.slice(1).map(Number);
    else if (one && line) take(one, Number(words[0]), words);
  }
  return all;
}
function begun(name, plan) {
  const flows = new Map([...plan?.flows || []].map(([flow, {at, smss}]) => [flow, [{at, window: smss * (smss > 1095 ? 3 : 4)}]]));
  return {name, plan, packets: [], flows, losses: new Map(), queues: new Map(), ends: new Map(), carries: new Set(), drops: new Map(), senders: new Map(),
    last: 1, counters: null, isSpent: false};
}
// Returns the sender of a packet by its `make` line: a flow, a flow's acknowledgements, a train, or a command `inject`.
function senderOf(one, at, words) {
  if (words[3] === "data") return `flow ${words[4]}`;
  if (words[3] === "ack") return `flow ${words[4]} acks`;
  const load = words.slice(4).join(" ");
  const train = one.plan?.trains.find((it) => it.load === load && at >= it.at && at <= it.at + (it.count - 1) * it.gap && (at - it.at) % (it.gap || 1) === 0);
  return train ? train.name : "injected";
}
function take(one, at, words) {
  if (!(at >= 0)) return;
  const packet = one.packets[+words[2]], kind = words[1];
  if (TAKES[kind]) {
    TAKES[kind](one, at, words, packet);
    one.last = Math.max(one.last, at);
  } else if (kind === "spent") one.isSpent = true;
}
const TAKES = {
  make(one, at, words) { one.packets[+words[2]] = {made: at, who: senderOf(one, at, words), size: +words.at(-1), pipe: null, came: 0, service: 0}; },
  arrive(one, at, words, packet) {
    change(one, words[3], at, 1);
    if (!packet) return;
    Object.assign(packet, {pipe: words[3], came: at});
    if (!TO_ACKS.test(packet.who)) one.carries.add(words[3]);
  },
  finish(one, at, words, packet) {
    if (!packet) return;
    change(one, words[3], at, -1);
    // The longest service is the time that the packet's bytes took to pass.
    packet.service = Math.max(packet.service, at - Math.max(packet.came, one.ends.get(words[3]) || 0));
    packet.pipe = null;
    one.ends.set(words[3], at);
  },
  deliver(one, at, words, packet) {
    if (packet) listed(one.senders, packet.who).push({at, delay: at - packet.made, size: packet.size, service: packet.service});
  },
  drop(one, at, words, packet) {
    listed(one.drops, words.at(-1)).push(at);
    if (words[3] === "data") listed(one.losses, words[4]).push(at);
    if (packet?.pipe) change(one, packet.pipe, at, -1);
  },
  ack(one, at, words) { listed(one.flows, words[2]).push({at, window: +words[3]}); },
  expire(one, at, words) { listed(one.flows, words[2]).push({at, window: +words[3], isTimeout: true}); },
};
function change(one, pipe, at, by) {
  const steps = listed(one.queues, pipe), now = (steps.at(-1)?.count || 0) + by;
  if (steps.at(-1)?.at === at) steps.at(-1).count = now;
  else steps.push({at, count: now});
}
// Returns the name of an instance: `pipe 1`, or `pipe 1.3` if the pipe has several instances.
function pipeName(one, instance) {
  const [pipe, place] = instance.split(".");
  return place === "0" && [...one.queues.keys()].filter((it) => it.split(".")[0] === pipe).length === 1 ? `pipe ${pipe}` : `pipe ${instance}`;
}

// Returns the panels of an experiment, with the names that tools/plot uses. A panel has a title, a unit and series; the points of
// a series are times (ns) and values, in order. Throughput is that of the visible span. Unless `acks` is true, it omits
// acknowledgements, and pipes that carry nothing else.
function panelsOf(one, begin = 0, end = one.last, acks = false) {
  const found = [], few = (map) => [...map].slice(0, COLOURS.length);
  const add = (title, unit, series) => { const own = series.filter((it) => it.x.length); if (own.length) found.push({title, unit, series: own}); };
  const series = (label, form, list, value) => ({label, form, x: list.map((it) => it.at), y: list.map(value)});
  const all = [...one.senders].sort(([a], [b]) => rankOf(a) - rankOf(b)), data = all.filter(([who]) => !TO_ACKS.test(who)), senders = few(acks || !data.length ? all : data);
  const pipes = [...one.queues.keys()].filter((it) => acks || !one.carries.size || one.carries.has(it));
  add("One-way delay", "ms", senders.map(([who, list]) => series(who, "points", list, (it) => it.delay / 1e6)));
  add("Congestion window", "bytes", few(one.flows).flatMap(([flow, list]) => [series(`cwnd ${flow}`, "steps", list, (it) => it.window),
    lossesOf(one, flow, list), series(`timeout ${flow}`, "marks", list.filter((it) => it.isTimeout), (it) => it.window)]));
  const queues = pipes.slice(0, COLOURS.length - 1).map((it) => series(pipeName(one, it), "steps", one.queues.get(it), ({count}) => Math.max(count - 1, 0)));
  add("Queue length", "packets", [...queues, ...levelsOf(one, pipes, "limit", (it) => it.slots, queues)]);
  const rates = senders.map(([who, list]) => throughputOf(who, list, begin, end, one.last));
  add("Throughput", "Mbit/s", [...rates, ...levelsOf(one, pipes, "rate", (it) => it.rate, rates)]);
  add("Drops by cause, cumulative", "packets", few(one.drops).map(([cause, list]) => ({label: cause, form: "steps", x: list, y: list.map((_, k) => k + 1)})));
  return found;
}
// Returns the rank of a sender in the legend: flows first, then their acknowledgements, trains and single packets.
const rankOf = (who) => 1e6 * (who === "injected" ? 3 : who.startsWith("train") ? 2 : TO_ACKS.test(who) ? 1 : 0) + (+who.split(" ")[1] || 0);
// Returns the losses of a flow, as marks on its window.
function lossesOf(one, flow, list) {
  const times = list.map((it) => it.at), x = one.losses.get(flow) || [];
  return {label: `loss ${flow}`, form: "marks", x, y: x.map((at) => list[Math.max(lower(times, at + 1) - 1, 0)]?.window || 0)};
}
// Returns the settings of pipes as levels over time. A level far above all values is omitted, because it would flatten them.
function levelsOf(one, instances, what, value, series) {
  const most = Math.max(0, ...series.flatMap((it) => it.y)), pipes = [...new Set(instances.map((it) => it.split(".")[0]))];
  return pipes.map((pipe) => {
    const list = (one.plan?.pipes.get(pipe) || []).filter((it) => it.at <= one.last);
    const level = {label: `${what} of pipe ${pipe}`, form: "level", x: list.map((it) => it.at), y: list.map(value)};
    if (!list.length || level.y.some((it) => !(it <= 3 * most))) return {...level, x: []};
    return {...level, x: [...level.x, one.last], y: [...level.y, level.y.at(-1)]};
  });
}
// Returns the throughput in intervals of 1, 2 or 5 times a power of ten (ns), of which about fifty are visible. A packet's bytes
// are spread over the time of its service, so that no interval has more than the link carries.
function throughputOf(who, list, begin, end, last) {
  const least = Math.max((end - begin) / 50, 1), power = 10 ** Math.floor(Math.log10(least)), every = [1, 2, 5, 10].find((it) => it * power >= least) * power;
  const first = Math.floor(begin / every), stop = Math.min(Math.ceil(end / every) * every, last);
  // A last interval of less than 5 % of the others is part of the one before.
  const many = Math.max(Math.ceil(stop / every - 0.05) - first, 0), bytes = new Float64Array(many);
  const edges = Array.from({length: many + 1}, (_, k) => k === many ? stop : (first + k) * every);
  for (let k = many ? lower(list.map((it) => it.at), edges[0]) : list.length; k < list.length; k++) {
    const {at, size, service} = list[k], from = at - service;
    for (let place = Math.max(Math.min(Math.ceil(from / every) - 1 - first, many - 1), 0); place < many && edges[place] < at; place++) {
      const share = service ? (Math.min(at, edges[place + 1]) - Math.max(from, edges[place])) / service : at <= edges[place + 1] ? 1 : 0;
      bytes[place] += size * Math.max(share, 0);
    }
  }
  const y = Array.from(bytes, (came, k) => came / (edges[k + 1] - edges[k]) * 8e3);
  return {label: who, form: "steps", x: many ? edges : [], y: many ? [...y, y.at(-1)] : []};
}
