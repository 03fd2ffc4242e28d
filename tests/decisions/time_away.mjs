/** Which gaps between two turns of the loop are a time away. */
import { timeAway } from "/web/run/loop.js";

export function turns(counts, cases) {
  const turn = ([running, counting]) => ({ running, counting });
  for (const [name, before, now, waited, seconds] of cases("turns")) {
    counts.same(name, timeAway(turn(before), turn(now), waited), seconds);
  }
}
