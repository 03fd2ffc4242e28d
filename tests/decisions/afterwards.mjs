/** A board whose game is over: what is said of it, and where the next game begins. The program says which moves count. */
import { isReadAnew, nextBegins } from "/web/board/next_game.js";
import { Looks, corrected, textOfLook, unheard, wentOn } from "/web/game/alarms.js";

export function looks(counts, cases) {
  for (const [after, moves, result, expected] of cases("went_on")) counts.same(expected, textOfLook(wentOn(after, moves, result)), expected);
  for (const [ply, expected] of cases("corrected")) counts.same(expected, textOfLook(corrected(ply)), expected);
  for (const [ply, expected] of cases("unheard")) counts.same(expected, textOfLook(unheard(ply)), expected);
  const more = new Looks([wentOn("38. Kf2", 2, "1-0")]).withOneMore(wentOn("38. Kf2", 3, "1-0"));
  counts.same("a later count", more.open, [wentOn("38. Kf2", 3, "1-0")]);
}

export function next(counts, cases) {
  for (const [name, stood, start, plies, expected] of cases("is_read_anew")) counts.same(name, isReadAnew(stood, start, plies), expected);
  for (const [name, pictures, end, start, expected] of cases("next_begins")) counts.same(name, nextBegins(pictures, end, start), expected);
}
