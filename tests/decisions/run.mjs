/** In a browser: runs the cases of one file over the modules of web/. tests/recorder calls it. */
import { Counts } from "./table.mjs";

/** What came of each table of a file: [[its name, how many passed, what failed], ..]. */
export async function run(name) {
  const tables = await (await fetch(new URL(`./${name}.json`, import.meta.url))).json();
  const cases = (table) => tables[table].cases;
  const module = await import(`./${name}.mjs`);
  return Object.entries(module).map(([table, plays]) => {
    const counts = new Counts();
    try {
      plays(counts, cases);
    } catch (error) {
      counts.failed.push(`${table}\n  seen     ${error.stack}`);
    }
    return [table, counts.passed, counts.failed];
  });
}
