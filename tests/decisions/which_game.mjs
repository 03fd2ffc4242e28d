/** Which of two games a typed result is for. */
import { whichGame } from "/web/game/typed.js";

export function results(counts, cases) {
  for (const [name, plies, isBeforeUnended, expected] of cases("results")) counts.same(name, whichGame(plies, isBeforeUnended), expected);
}
