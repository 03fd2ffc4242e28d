/** How long a state has lasted, in words, and what is said of a clock that is stopped. What a board's state is, the program decides. */
import { lasting } from "/live/show/page/chess.js";
import { Kind, State, TURNED_ROUND } from "/web/board/state.js";
import { message } from "/live/show/page/message.js";

const HINTS = { "state.turned_round": TURNED_ROUND, "state.other_board": message("state.other_board") };

export function times(counts, cases) {
  for (const [seconds, text] of cases("lasting")) {
    counts.same(text, lasting(seconds), text);
  }
  const alarms = Object.values(Kind).map(String).filter((kind) => kind === kind.toUpperCase());
  counts.same("kinds that are alarms", alarms, ["WRONG", "NO START", "SILENT", "UNPLUGGED"]);
}

export function questions(counts, cases) {
  for (const [name, fits, asked] of cases("questions")) {
    const state = new State(Kind.WRONG, 0, { squares: ["d5"], fits });
    counts.same(name, [state.parts().map(String), state.news.at(-1)], [["WRONG", `: d5; ${asked}`], fits]);
  }
}

export function clocks(counts, cases) {
  for (const [name, kind, { hint, ...known }, front, rest, isNews] of cases("clocks")) {
    const [runs, stands] = [false, true].map((clockStopped) => new State(Kind[kind], 0, { ...known, hint: HINTS[hint], clockStopped }));
    counts.same(name, stands.parts().map(String), [front, rest]);
    const differs = JSON.stringify(stands.news) !== JSON.stringify(runs.news);
    counts.same(`${name}: what is news, and an alarm`, [differs, stands.isAlarm], [isNews, runs.isAlarm]);
  }
}
