/** Tags: which values they may have, and the text of a game as it is published. */
import { published, valueOf } from "/web/game/tags.js";

export function texts(counts, cases) {
  for (const [recorded, tags, expected] of cases("published")) {
    counts.same(expected, published(recorded, tags), expected);
  }
}

export function values(counts, cases) {
  for (const [name, typed, expected] of cases("values")) {
    counts.same(`${name} ${typed}`, valueOf(name, typed), expected);
  }
  for (const [name, typed, expected] of cases("malformed")) {
    counts.same(`${name} ${typed}`, counts.refused(typed, "Malformed", () => valueOf(name, typed)), expected);
  }
}
