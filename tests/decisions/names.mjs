/** Names and dates: what is typed, and what a PGN tag has then. */
import { asciiName, pgnDate } from "/web/game/names.js";

const UNPRINTABLE = /[\p{Cc}\p{Cf}\p{Cs}\p{Zl}\p{Zp}]/u;

export function names(counts, cases) {
  for (const [text, expected] of Object.entries(cases("names"))) {
    counts.same(text, asciiName(text), expected);
    counts.same(`${text}, twice`, asciiName(expected), expected);
  }
  for (const [text, expected] of Object.entries(cases("no names"))) {
    counts.same(text, counts.refused(text, "Unreadable", () => asciiName(text)), expected);
  }
}

export function dates(counts, cases) {
  for (const [text, expected] of Object.entries(cases("dates"))) {
    counts.same(text, pgnDate(text), expected);
  }
  for (const text of cases("no dates")) {
    const told = counts.refused(text, "Unreadable", () => pgnDate(text));
    counts.same(text, [told.includes("write it as 2024.05.31"), !UNPRINTABLE.test(told)], [true, true]);
  }
}
