/** Whether the cables of two boards may have been exchanged; which boards have one number; and what is said then. */
import { cameBack } from "/web/board/presence.js";
import { textOfLook, toldOfExchange, toldOfSameNumber } from "/web/game/alarms.js";
import { mayBeExchanged, sameNumber } from "/web/hall/exchanged.js";

const returned = ([heardAt, cameAt, number, placement]) => ({ heardAt, cameAt, number, placement });

export function returns(counts, cases) {
  for (const [name, heardAt, hasSlept, now, expected] of cases("returns")) {
    counts.same(name, cameBack(heardAt, hasSlept, now), expected && { heardAt: expected[0], cameAt: expected[1] });
  }
}

export function boards(counts, cases) {
  for (const [name, first, second, expected] of cases("boards")) {
    const [one, other] = [returned(first), returned(second)];
    counts.same(name, [mayBeExchanged(one, other), mayBeExchanged(other, one)], [expected, expected]);
  }
}

export function told(counts, cases) {
  for (const [others, expected] of cases("told")) counts.same(expected, textOfLook(toldOfExchange(others)), expected);
}

export function same_number(counts, cases) {
  for (const [name, serials, board, expected] of cases("same_number")) {
    counts.same(name, sameNumber(new Map(serials), board), expected);
  }
}

export function told_of_number(counts, cases) {
  for (const [others, expected] of cases("told_of_number")) counts.same(expected, textOfLook(toldOfSameNumber(others)), expected);
}
