/** What is said if another board is on a cable. */
import { another, back, mayTake } from "/web/board/cable.js";
import { textOfLook } from "/web/game/alarms.js";

export function alarms(counts, cases) {
  for (const [other, hasMoves, text, takes] of cases("told")) {
    const owner = other && { name: other[0], hasMoves: other[1], isOver: false };
    const look = another("01234", "01235", owner, hasMoves);
    counts.same(`${other}, moves ${hasMoves}`, [textOfLook(look), mayTake(owner, hasMoves)], [text, takes]);
    counts.same("one alarm", look.about, back("01234", "01235").about);
  }
  for (const [hadMoves, hasMoves, text, takes] of cases("told of one that is over")) {
    const owner = { name: "board 2", hasMoves: hadMoves, isOver: true };
    const seen = [textOfLook(another("01234", "01235", owner, hasMoves)), mayTake(owner, hasMoves)];
    counts.same(`over with moves ${hadMoves}, moves ${hasMoves}`, seen, [text, takes]);
  }
  const told = "LOOK at the cable: it had the board with serial number 01235; its own, 01234, is back";
  counts.same("its own is back", textOfLook(back("01234", "01235")), told);
}
