// Lessons. Each has a question, a scenario to change, an answer to unfold, and an address like `#lesson=queue`.
"use strict";
let lessons = [], lesson = null;
const paragraphs = (text) => text.split("\n").filter(Boolean).map((line) => Object.assign(document.createElement("p"), {textContent: line}));
// Shows the lesson of this name, or none if there is no such lesson. Does not change the scenario in the page.
function showLesson(name) {
  lesson = lessons.find((one) => one.name === name) || null;
  at("lesson").hidden = !lesson;
  for (const link of document.querySelectorAll("#lesson-links a")) {
    if (lesson && link.hash === `#lesson=${lesson.name}`) link.setAttribute("aria-current", "page"); else link.removeAttribute("aria-current");
  }
  if (!lesson) return;
  const place = lessons.indexOf(lesson), next = lessons[place + 1];
  at("lesson-title").textContent = `Lesson ${place + 1}: ${lesson.title}`;
  at("question").replaceChildren(...paragraphs(lesson.question));
  at("answer").replaceChildren(...paragraphs(lesson.answer));
  at("unfold").open = false;
  at("next").hidden = !next;
  if (next) Object.assign(at("next"), {href: `#lesson=${next.name}`, textContent: `Next lesson: ${next.title}`});
}
function listLessons() {
  lessons = JSON.parse(at("lessons").textContent);
  at("lesson-links").replaceChildren(...lessons.map((one, place) => {
    const item = document.createElement("li");
    item.append(Object.assign(document.createElement("a"), {href: `#lesson=${one.name}`, textContent: `${place + 1}. ${one.title}`}));
    return item;
  }));
}
