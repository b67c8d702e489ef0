// The visible span of the pictures, and the values under the pointer. All pictures show the same span of time.
"use strict";
// The visible span (ns), or null for all; the panels and frames that are drawn, in the order of their pictures; and the place
// where the pointer was pressed.
let span = null, drawn = [], pressed = null;
// Returns a span of at least 100 ns that lies between 0 and `until` (ns), or null if it covers everything.
function spanWithin(begin, end, until) {
  const width = Math.max(end - begin, 100), first = Math.min(Math.max(begin, 0), Math.max(until - width, 0));
  return width >= until ? null : [first, first + width];
}
function zoomed(begin, end, until, factor) {
  const middle = (begin + end) / 2, half = (end - begin) / 2 * factor;
  return spanWithin(middle - half, middle + half, until);
}
const shifted = (begin, end, until, share) => spanWithin(begin + (end - begin) * share, end + (end - begin) * share, until);
const MOVES = {"+": (...all) => zoomed(...all, 0.5), "=": (...all) => zoomed(...all, 0.5), "-": (...all) => zoomed(...all, 2), "0": () => null,
  ArrowLeft: (...all) => shifted(...all, -0.5), ArrowRight: (...all) => shifted(...all, 0.5)};
// Moves or zooms the visible span by a key, or by the button with the key's name.
function move(key) {
  if (!drawn.length || !MOVES[key]) return;
  const {begin, end, until} = drawn[0].frame;
  span = MOVES[key](begin, end, until);
  pictures();
}

// Returns the values of a panel's series at a time (ns): the value of a line at that time, and points at most `near` ns away.
function valuesAt(panel, moment, near) {
  return panel.series.flatMap((one) => {
    const after = lower(one.x, moment + (isLine(one) ? 1 : 0));
    if (isLine(one)) return after && moment <= one.x.at(-1) ? [{label: one.label, value: one.y[after - 1]}] : [];
    const [place] = [after - 1, after].filter((k) => k >= 0 && k < one.x.length && Math.abs(one.x[k] - moment) <= near)
      .sort((a, b) => Math.abs(one.x[a] - moment) - Math.abs(one.x[b] - moment));
    return place === undefined ? [] : [{label: one.label, value: one.y[place], at: one.x[place]}];
  });
}
// Returns the picture below a pointer event, and the time (ns) at its position.
function pointedAt(event) {
  const svg = event.target.closest?.("#pictures [data-place]"), of = svg && drawn[+svg.dataset.place];
  if (!of) return null;
  const {begin, end, wide} = of.frame, across = event.clientX - svg.getBoundingClientRect().left;
  const share = Math.min(Math.max((across - LEFT) / (wide - LEFT - RIGHT), 0), 1), moment = begin + share * (end - begin);
  return {svg, of, moment, across: LEFT + share * (wide - LEFT - RIGHT), near: (end - begin) / (wide - LEFT - RIGHT) * 8};
}
function point(event) {
  const found = pointedAt(event), tip = at("tip");
  document.querySelectorAll("#pictures .guide").forEach((it) => it.setAttribute("visibility", "hidden"));
  tip.hidden = !found;
  if (!found) return;
  const {svg, of, moment, across, near} = found, guide = svg.querySelector(".guide");
  for (const name of ["x1", "x2"]) guide.setAttribute(name, across);
  guide.setAttribute("visibility", "visible");
  const values = valuesAt(of.panel, moment, near).map(({label, value}) => `${label}: ${short(value)} ${of.panel.unit}`);
  const [unit, name] = unitOf(of.frame.end), shown = (t) => `${+(t / unit).toPrecision(5)} ${name}`;
  tip.textContent = [pressed ? `${shown(pressed.moment)} to ${shown(moment)}` : shown(moment), ...values].join("\n");
  tip.style.left = `${Math.min(event.clientX + 14, innerWidth - tip.offsetWidth - 4)}px`;
  tip.style.top = `${Math.min(event.clientY + 14, innerHeight - tip.offsetHeight - 4)}px`;
}
// Shows the span that was selected by dragging.
function release(event) {
  const found = pointedAt(event), begun = pressed;
  pressed = null;
  if (!begun || !found || Math.abs(found.across - begun.across) < 6) return;
  const [begin, end] = [begun.moment, found.moment].sort((a, b) => a - b);
  span = spanWithin(begin, end, found.of.frame.until);
  pictures();
}
function listenToPictures() {
  at("pictures").addEventListener("pointermove", point);
  at("pictures").addEventListener("pointerleave", (event) => { pressed = null; point(event); });
  at("pictures").addEventListener("pointerdown", (event) => { pressed = event.button ? null : pointedAt(event); point(event); });
  at("pictures").addEventListener("pointerup", release);
  at("pictures").addEventListener("dblclick", () => move("0"));
  at("pictures").addEventListener("keydown", (event) => { if (MOVES[event.key] && !event.ctrlKey && !event.metaKey) { event.preventDefault(); move(event.key); } });
  for (const button of document.querySelectorAll("[data-move]")) button.addEventListener("click", () => move(button.dataset.move));
}
