/** The plies that no picture showed, as `recover` reports them. */
import { leadsBack, pairsIn, putBefore } from "/web/game/hidden.js";

export function pairs(counts, cases) {
  for (const [name, report, expected] of cases("pairs")) {
    counts.same(name, pairsIn(report).map(({ moves, offset }) => [moves, offset]), expected);
  }
}

export function putIn(counts, cases) {
  for (const [name, sent, made, offset, expected] of cases("put in")) {
    counts.same(name, [...putBefore(Uint8Array.from(sent), Uint8Array.from(made), offset)], expected);
  }
}

export function back(counts, cases) {
  for (const [name, fens, stays, expected] of cases("leads back")) counts.same(name, leadsBack(fens, stays), expected);
}
