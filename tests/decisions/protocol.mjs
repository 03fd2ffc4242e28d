/** Placements. */
import { differing, pictureOfPlacement } from "/web/line/protocol.js";

export function pictures(counts, cases) {
  for (const [name, text, first, codes] of cases("placements")) {
    counts.same(name, Array.from(pictureOfPlacement(text)).slice(first, first + codes.length), codes);
  }
  for (const [one, other, squares] of cases("differing")) {
    counts.same("differing", differing(pictureOfPlacement(one), pictureOfPlacement(other)), squares);
  }
  for (const text of cases("no placements")) {
    counts.refused(`placement ${text}`, "Error", () => pictureOfPlacement(text));
  }
}
