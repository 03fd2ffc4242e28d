/** In which order the files of a folder are written. */
import { nextFile, renamedAgain } from "/web/kept/folder.js";

export function orders(counts, cases) {
  for (const [name, waiting, fails, expected, renamed] of cases("orders")) {
    const left = new Map(waiting.map((word) => (word.startsWith("-") ? [word.slice(1), null] : [word, "content"])));
    const tried = new Map();
    const order = [];
    const names = (renamed || []).reduce((found, [earlier, now]) => renamedAgain(found, earlier, now), new Map());
    const next = () => nextFile(left, tried, names);
    for (let file = next(); file; file = next()) {
      if (fails.includes(file)) {
        tried.set(file, "why");
      } else {
        left.delete(file);
        order.push(file);
      }
    }
    counts.same(name, order, expected);
  }
}
