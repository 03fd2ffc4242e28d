/** Games that aren't played: how that is typed, and when it counts. */
import { askedUnplayed, countingForfeit, isEmpty, tagsOfForfeit, typedForfeit, whyPlayed } from "/web/game/forfeits.js";

export function forfeits(counts, cases) {
  for (const [text, expected] of cases("typed")) {
    counts.same(`${text} typed`, typedForfeit(text), expected);
  }
  for (const [kind, plies, result, expected] of cases("counts")) {
    counts.same(`${kind} ${plies} ${result}`, countingForfeit(kind, plies, result), expected ? kind : "");
  }
  for (const [kind, plies, result, expected] of cases("played")) {
    counts.same(`${kind} after ${plies} ${result}`, whyPlayed(kind, plies, result), expected);
  }
  for (const [kind, moves, result, expected] of cases("empty")) {
    const text = `[Event "?"]\n[Result "${result}"]\n\n${moves} ${result}\n\n`;
    counts.same(`${kind} ${moves} ${result} counts as none`, isEmpty(kind, text), expected);
  }
  const again = (result) => `For ${result} all the same, give it again`;
  for (const [result, side, typed] of [["1-0", "Black", "+-"], ["0-1", "White", "-+"]]) {
    counts.same(`${result} before the first move`, String(askedUnplayed(result)), `no move was made yet. If ${side} has not come, type ${typed}. ${again(result)}`);
  }
  counts.same("a draw before the first move", String(askedUnplayed("1/2-1/2")), `no move was made yet. ${again("1/2-1/2")}`);
  counts.same("no text", isEmpty("", ""), true);
  counts.same("the tag", tagsOfForfeit("+-"), { Termination: "rules infraction" });
  counts.same("no tag", tagsOfForfeit(""), {});
}
