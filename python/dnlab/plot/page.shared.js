// What the page of `dnlab-view` and the playground have in common: how series look without colour, and which points are drawn.
"use strict";
// So many stretches of time keep their first, least, greatest and last value: points cost more than lines.
const STRETCHES = {steps: 400, points: 100, marks: 100};
const DASHES = ["solid", "dash", "dot", "dashdot", "longdash", "longdashdot", "8px,2px,2px,2px", "1px,4px", "12px,4px"];
const COLOURS = ["#000000", "#d55e00", "#0072b2", "#777777", "#009e73", "#555555", "#cc79a7", "#222288", "#b08000"];

// The first place whose value isn't below the wanted one; `x` is in order.
function lower(x, wanted) {
  let low = 0, high = x.length;
  while (low < high) {
    const middle = (low + high) >> 1;
    if (x[middle] < wanted) low = middle + 1; else high = middle;
  }
  return low;
}

// The places of a series that are drawn: those in sight, with one beside them where a line goes on, thinned.
function inSight(x, y, form, begin, end) {
  let from = lower(x, begin), to = lower(x, end + 1);
  if (form === "steps") [from, to] = [Math.max(from - 1, 0), Math.min(to + 1, x.length)];
  const kept = [], stretches = STRETCHES[form];
  if (to - from <= 4 * stretches) {
    for (let k = from; k < to; k++) kept.push(k);
    return kept;
  }
  const width = (x[to - 1] - x[from] + 1) / stretches;
  for (let first = from; first < to;) {
    const stretch = Math.floor((x[first] - x[from]) / width);
    let least = first, most = first, next = first + 1;
    for (; next < to && Math.floor((x[next] - x[from]) / width) === stretch; next++) {
      if (y[next] < y[least]) least = next;
      if (y[next] > y[most]) most = next;
    }
    kept.push(...[...new Set([first, least, most, next - 1])].sort((a, b) => a - b));
    first = next;
  }
  return kept;
}

const time = (moment) => moment < 0 ? "?" : (moment / 1e6).toFixed(6).replace(/\.?0+$/, "") + " ms";
