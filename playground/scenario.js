// Prepares a text for a run: fills in the values of the sliders, and switches tracing on for the pictures.
"use strict";
const SLIDER = /^#\? +([a-z]\w*) +(-?\d+)\.\.(-?\d+)(?: +step +(\d+))? += +(-?\d+)\s*$/;
const HOLE = /\{\{ *(\w*) *\}\}/g;
// Returns the sliders that lines like `#? queue 10..1000 = 100` define, and the faults in these lines and in `{{ queue }}`.
function slidersOf(text) {
  const sliders = [], wrong = [], lines = text.split("\n");
  lines.forEach((line, place) => {
    if (!line.startsWith("#?")) return;
    const found = SLIDER.exec(line), [name, least, most, step, value] = found ? [found[1], ...found.slice(2).map(Number)] : [];
    const says = (what) => wrong.push(`line ${place + 1}: ${what}`);
    if (!found) says("a slider is a line as '#? queue 10..1000 = 100', or '#? queue 10..1000 step 10 = 100'");
    else if (least > most || value < least || value > most) says(`the value of the slider ${name} must lie between ${least} and ${most}`);
    else if (sliders.some((one) => one.name === name)) says(`there is another slider ${name}`);
    else sliders.push({name, least, most, step: step || 1, value, place});
  });
  lines.forEach((line, place) => {
    for (const [, name] of line.matchAll(HOLE)) {
      if (!sliders.some((one) => one.name === name)) wrong.push(`line ${place + 1}: no line '#? ${name || "NAME"} LOW..HIGH = VALUE' says what {{ ${name} }} is`);
    }
  });
  return {sliders, wrong};
}
// Returns the text to run: replaces each `{{ name }}` by the value of its slider, and ends the last line if it has no end.
const filled = (text, sliders) => text.replace(HOLE, (whole, name) => sliders.find((one) => one.name === name)?.value ?? whole)
  .replace(/[^\n]$/, "$&\n");
// Returns the text with another value for a slider.
function moved(text, slider, value) {
  const lines = text.split("\n");
  lines[slider.place] = lines[slider.place].replace(/= +-?\d+\s*$/, `= ${value}`);
  return lines.join("\n");
}
// Returns the scenario with `trace 1` in each experiment, which records when packets are created and arrive.
const tracing = (text) => text.split("\n").map((line) => /^ *experiment /.test(line) ? `${line}\n@0 trace 1` : line).join("\n");
