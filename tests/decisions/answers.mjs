/** What is typed in a line; what the program answers to it, and the sentences for that. */
import { BOTH_LOSE, HELP, meaning, placeOf, readAnswer, readWords, refuse } from "/web/game/typed.js";

const ON_HELP = ["1-0", "Nf3 Nc6", "back", "14. Bxf6", "*", "ok"];

function answer(status, said) {
  return readAnswer("add", { status, errors: new TextEncoder().encode(said), output: new Uint8Array(0) });
}

export function words(counts, cases) {
  for (const [text, expected] of cases("typed")) {
    counts.same(text, readWords(text), expected);
  }
  for (const text of cases("helps")) {
    counts.same(text, readWords(text), { kind: "helped" });
  }
  counts.same("all ways", ON_HELP.filter((part) => HELP.includes(part)), ON_HELP);
  for (const text of cases("noughts")) {
    counts.same(text, counts.refused(text, "Refused", () => readWords(text)).startsWith(BOTH_LOSE), true);
  }
  for (const [text, to] of cases("plies")) {
    counts.same(`back ${text}`, readWords(`back ${text}`), { kind: "back", to });
  }
  for (const text of cases("undo alone")) {
    counts.same(text, counts.refused(text, "Refused", () => readWords(text)).startsWith("undo takes back the line that was typed last"), true);
  }
  for (const text of cases("which moves")) {
    counts.same(text, counts.refused(text, "Refused", () => readWords(text)).startsWith("the number of the first move"), true);
  }
  for (const text of cases("which ply")) {
    counts.same(text, counts.refused(text, "Refused", () => readWords(text)).startsWith("which ply? Type it as"), true);
  }
}

export function sentences(counts, cases) {
  for (const [said, text, place, expected] of cases("sentences")) {
    counts.same(said, refuse(answer(1, `add: ${said}\n`), text, place).message, expected);
  }
  for (const [said, text, plies, expected] of cases("added")) {
    counts.same(said, meaning(answer(0, `add: ${said}\n`), text, plies), expected);
  }
  for (const [fen, played, text, said, expected] of cases("places")) {
    counts.same(`${text} after ${played}`, placeOf(answer(1, `add: ${said}\n`), fen, played, text), expected);
  }
}

export function failures(counts, cases) {
  for (const [status, said] of cases("no answer")) {
    counts.refused(`${status} ${said}`, "ProgramError", () => answer(status, said));
  }
}
