/** What `live` is told of a board and answers; and the state that it says, in words. */
import { stateOf } from "/web/board/state.js";
import { Answers, entryOf } from "/web/child/attended.js";

const latin = (bytes) => String.fromCharCode(...bytes);
const bytesOf = (text) => Uint8Array.from(text, (letter) => letter.charCodeAt(0));

/** An answer with its bytes as letters. */
const readable = ({ kept, game, ...rest }) => ({ kept: latin(kept), game: game && latin(game), ...rest });

const NONE = { kept: "", game: null, report: [], looks: [], handling: "", other: "", number: "", asks: "", end: null, clockStopped: null, state: null, due: null };

export function entries(counts, cases) {
  for (const [at, word, given, expected] of cases("entries")) {
    const bytes = typeof given === "string" ? bytesOf(given) : given;
    counts.same(expected, latin(entryOf(at, word, bytes)), expected);
  }
}

/** The same, however what is written is cut. That the capture is full isn't taken from them here. */
export function answers(counts, cases) {
  for (const [name, written, expected] of cases("answers")) {
    const bytes = bytesOf(written);
    for (const size of [1, 2, 5, 64, bytes.length]) {
      const taken = new Answers();
      const seen = [];
      for (let at = 0; at < bytes.length; at += size) {
        seen.push(...taken.take(bytes.subarray(at, at + size)));
      }
      counts.same(`${name}, ${size} bytes at once`, seen.map(readable), expected.map(({ isFull, ...answer }) => ({ ...NONE, ...answer })));
    }
  }
  for (const text of cases("no answers")) {
    counts.refused(text, "NoAnswer", () => new Answers().take(bytesOf(text)));
  }
}

export function states(counts, cases) {
  for (const [name, said, differs, beside, now, text, isAlarm] of cases("states")) {
    const [{ state }] = new Answers().take(bytesOf(`state ${said}\ndone -\n`));
    const read = stateOf(state, 100, differs ? differs.split(" ") : [], { result: "*", disk: "", look: "", ...beside });
    counts.same(name, [read.text(now), read.isAlarm], [text, isAlarm]);
  }
}
