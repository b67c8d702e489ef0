// Draws panels as SVG. Series differ in dashes, in the shapes of their points and in their labels, not only in colour.
"use strict";
const HIGH = 190, LEFT = 58, RIGHT = 12, TOP = 24, BOTTOM = 26, ROW = 16, NARROW = 190;
const SHAPES = ["M-2.2 0a2.2 2.2 0 1 0 4.4 0a2.2 2.2 0 1 0-4.4 0", "M-2.4-2.4h4.8v4.8h-4.8z", "M0-3l3 5h-6z", "M0-3.2l3 3.2l-3 3.2l-3-3.2z", "M-3 0h6M0-3v6",
  "M-2.5-2.5l5 5M-2.5 2.5l5-5", "M0 3l3-5h-6z", "M-3 0h6", "M0-3v6"];
const CROSS = "M-4-4l8 8M-4 4l8-8", TRIANGLE = "M0 4l4-7h-8z";
const STROKES = {solid: "", dash: "8 4", dot: "2 3", dashdot: "8 3 2 3", longdash: "14 4", longdashdot: "14 3 2 3"};
const strokeOf = (one, place) => one.form === "level" ? "1 4" : STROKES[DASHES[place % DASHES.length]] ?? DASHES[place % DASHES.length].replace(/px/g, "").replace(/,/g, " ");
const shapeOf = (one, place) => one.form !== "marks" ? SHAPES[place % SHAPES.length] : one.label.startsWith("timeout") ? TRIANGLE : CROSS;
const isLine = (one) => one.form === "steps" || one.form === "level";
const colourOf = (place) => `var(--c${place % COLOURS.length})`;
const escaped = (text) => text.replace(/[<>&"]/g, (sign) => `&#${sign.charCodeAt(0)};`);
const unitOf = (until) => [[1e9, "s"], [1e6, "ms"], [1e3, "us"], [1, "ns"]].find(([unit]) => until >= 2 * unit || unit === 1);
// Returns round values for the lines of a scale, from the first to the last. For a count, all of them are whole numbers.
function ticks(first, last, many, isCount = false) {
  const rough = Math.max((last - first) / many, isCount ? 1 : 0), power = 10 ** Math.floor(Math.log10(rough));
  const step = [1, 2, ...isCount ? [] : [2.5], 5, 10].find((factor) => factor * power >= rough) * power;
  const begin = Math.ceil(first / step - 1e-9);
  return Array.from({length: Math.floor(last / step * (1 + 1e-9)) - begin + 1}, (_, k) => (begin + k) * step);
}
const short = (value) => String(+value.toPrecision(6));
// Returns the maximum of the series of some panels, so that two experiments can have the same scale.
const greatest = (panels) => Math.max(...panels.flatMap((panel) => panel.series.map((one) => one.y.reduce((most, y) => Math.max(most, y), 0))), 0) || 1;
// Returns functions from times (ns) and values to coordinates, in a picture of a width (px) that shows a span of time (ns) and
// values up to `most`.
function scalesOf({begin, end, most, wide}) {
  return {x: (t) => (LEFT + (t - begin) / (end - begin) * (wide - LEFT - RIGHT)).toFixed(1), y: (v) => (HIGH - BOTTOM - v / most * (HIGH - TOP - BOTTOM)).toFixed(1)};
}
function axes(frame, {x, y}, isCount) {
  const [unit, name] = unitOf(frame.end), out = [], moments = ticks(frame.begin / unit, frame.end / unit, Math.max(2, Math.min(6, frame.wide / 90)));
  for (const v of ticks(0, frame.most, isCount ? 5 : 4, isCount)) {
    out.push(`<line x1="${LEFT}" x2="${frame.wide - RIGHT}" y1="${y(v)}" y2="${y(v)}" class="grid"/>`);
    out.push(`<text x="${LEFT - 5}" y="${+y(v) + 4}" text-anchor="end">${short(v)}</text>`);
  }
  moments.forEach((t, k) => {
    const isLast = k === moments.length - 1;
    out.push(`<text x="${x(t * unit)}" y="${HIGH - 8}" text-anchor="${isLast ? "end" : "middle"}">${short(t)}${isLast ? ` ${name}` : ""}</text>`);
  });
  return out.join("");
}
function curve(one, place, frame, {x, y}) {
  const kept = inSight(one.x, one.y, one.form === "level" ? "steps" : one.form, frame.begin, frame.end), moments = kept.map((k) => x(one.x[k]));
  if (!isLine(one)) {
    return `<g fill="none" stroke="${colourOf(place)}">${kept.map((k, i) => `<path d="${shapeOf(one, place)}" transform="translate(${moments[i]} ${y(one.y[k])})"/>`).join("")}</g>`;
  }
  let d = "";
  kept.forEach((k, i) => { d += i ? `H${moments[i]}V${y(one.y[k])}` : `M${moments[i]} ${y(one.y[k])}`; });
  return `<path d="${d}" fill="none" stroke="${colourOf(place)}" stroke-width="1.5" stroke-dasharray="${strokeOf(one, place)}"/>`;
}
function legend(one, place, rows) {
  const at = `translate(${LEFT + 6 + Math.floor(place / rows) * NARROW} ${HIGH + 8 + (place % rows) * ROW})`;
  const mark = isLine(one) ? `<path d="M-2 0h26" stroke="${colourOf(place)}" stroke-width="1.5" stroke-dasharray="${strokeOf(one, place)}"/>`
    : `<path d="${shapeOf(one, place)}" transform="translate(11 0)" stroke="${colourOf(place)}" fill="none"/>`;
  return `<g transform="${at}">${mark}<text x="32" y="4">${escaped(one.label)}</text></g>`;
}
// Returns the text of a panel for screen readers: its title, and the range of each series.
function saidOf(panel) {
  const range = (one) => `${one.label}: ${short(one.y.reduce((a, b) => Math.min(a, b)))} to ${short(one.y.reduce((a, b) => Math.max(a, b)))}`;
  return `${panel.title} (${panel.unit}): ${panel.series.map(range).join(", ")}`;
}
// Returns a panel as SVG.
function svgOf(panel, frame) {
  const scales = scalesOf(frame), columns = Math.max(1, Math.floor((frame.wide - LEFT) / NARROW)), rows = Math.ceil(panel.series.length / columns);
  const height = HIGH + rows * ROW + 6, inner = frame.wide - LEFT - RIGHT;
  return `<svg width="${frame.wide}" height="${height}" viewBox="0 0 ${frame.wide} ${height}" role="img" aria-label="${escaped(saidOf(panel))}">`
    + `<text x="${LEFT}" y="15" class="title">${escaped(`${panel.title} (${panel.unit})`)}</text>${axes(frame, scales, panel.unit === "packets")}`
    + `<svg x="${LEFT - 5}" y="${TOP - 5}" width="${inner + 10}" height="${HIGH - BOTTOM - TOP + 10}" viewBox="${LEFT - 5} ${TOP - 5} ${inner + 10} ${HIGH - BOTTOM - TOP + 10}">`
    + panel.series.map((one, place) => curve(one, place, frame, scales)).join("") + "</svg>"
    + panel.series.map((one, place) => legend(one, place, rows)).join("") + '<line class="guide" y1="20" y2="164" visibility="hidden"/></svg>';
}
