/** Pairs that are pasted: which are taken, and how, and which are refused. */
import { pairsOf } from "/web/hall/rounds.js";

const BOARDS = [1, 2, 3, 4];

export function taken(counts, cases) {
  for (const [name, lines, expected, passed = []] of cases("taken")) {
    const seen = pairsOf(lines.join("\n"), BOARDS);
    const pairs = Object.fromEntries([...seen.pairs].map(([number, { White, Black }]) => [number, [White, Black]]));
    counts.same(name, [pairs, seen.passed], [expected, passed]);
  }
}

export function refused(counts, cases) {
  for (const [name, lines, part] of cases("refused")) {
    const said = counts.refused(name, "NoPair", () => pairsOf(lines.join("\n"), BOARDS));
    counts.same(`${name}, what is said`, said.includes(part) ? part : said, part);
  }
}
