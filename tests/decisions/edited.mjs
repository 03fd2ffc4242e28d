/** Whether somebody has edited a game's text by hand. */
import { isEarlier } from "/web/kept/folder.js";

function text([white, moves, result, named]) {
  return `[Event "?"]\n[White "${white}"]\n[Result "${named}"]\n\n${moves} ${result}\n\n`;
}

export function texts(counts, cases) {
  for (const [name, found, now, expected] of cases("texts")) {
    counts.same(name, isEarlier(found && text(found), text(now)), expected);
  }
}
