/** The checksum of an archive. tests/recorder unpacks a whole one. */
import { checksum } from "/web/hall/saving.js";

export function checksums(counts, cases) {
  for (const [text, expected] of cases("checksums")) {
    counts.same(text, checksum(new TextEncoder().encode(text)).toString(16), expected);
  }
}
