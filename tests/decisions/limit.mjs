/** How long a capture may get in the page, and what of it goes then. */
import { isLong, needless, spread } from "/web/kept/capture.js";
import { bytesOf } from "./table.mjs";

export function limits(counts, cases) {
  for (const [name, end, size, expected] of cases("long")) {
    counts.same(name, isLong(size, end), expected);
  }
  for (const [name, text, end, from, to] of cases("needless")) {
    counts.same(name, needless(bytesOf(text), end), [from, to]);
  }
  for (const [name, text, sizes] of cases("chunks")) {
    counts.same(name, spread(bytesOf(text), 0).map(({ bytes }) => bytes.length), sizes);
  }
}
