/** Lines of the program's report: what each is, and what they come to. */
import { lineOf, shownOf } from "/web/child/report.js";
import { Course, clocksOf } from "/web/game/course.js";

export function lines(counts, cases) {
  for (const [text, expected] of cases("lines")) {
    const line = lineOf(text);
    counts.same(text, line && [line.offset, line.event], expected);
  }
  for (const [digit, count, rest] of cases("long lines")) {
    counts.same(`${count} times ${digit}`, lineOf(digit.repeat(count) + rest), null);
  }
  for (const [text, shown] of cases("shown")) {
    counts.same(`${text} as it is shown`, shownOf(lineOf(text).event), shown);
  }
}

function courseOf(texts) {
  const course = new Course();
  texts.map(lineOf).forEach((line) => line && course.take(line));
  return course;
}

// A state, or a game's end, which live says; and what is still to be reported, which the page reports line by line.
const NOT_HERE = ["standing", "changed at", "stands at start", "has agreed", "stood again", "news"];

function lookedAt(course) {
  return {
    moves: course.plies.map((ply) => ply.san),
    positions: course.fens,
    result: course.result,
  };
}

export function courses(counts, cases) {
  for (const [name, texts, expected] of cases("courses")) {
    const seen = lookedAt(courseOf(texts));
    for (const [what, value] of Object.entries(expected).filter(([what]) => !NOT_HERE.includes(what))) {
      counts.same(`${name}: ${what}`, seen[what], value);
    }
  }
  for (const [plies, clocks] of cases("clocks")) {
    const moves = plies.map(([number, san, clock]) => ({ kind: "move", number, san, clock, corrects: false }));
    counts.same(`the clocks after ${plies.length} plies`, clocksOf(moves), clocks);
  }
}
