/** Which alarms of the program are open in a game, and what they say. */
import { Answers } from "/web/child/attended.js";
import { eventOf } from "/web/child/report.js";
import { Alarms, Looks, lookAt, lookOf, textOfLook } from "/web/game/alarms.js";

const PLIES = ["move 1. e4", "move 1... e5", "move 2. Nf3"].map(eventOf);
const SETTLED_AT = [100, 200, 300];
const GAP = "the board wasn't heard for a time, so moves may be missing: compare with the score sheets";
const LATE = "it corrects a move late, so moves may be missing: compare with the score sheets";

/** What the program says in these lines, without `look`. */
function raisedIn(...lines) {
  const written = ["keep", ...lines.map((line) => `look ${line}`), "done -", ""].join("\n");
  const [{ looks }] = new Answers().take(new TextEncoder().encode(written));
  return looks;
}

const course = (plies = PLIES) => ({ plies, settledAt: SETTLED_AT.slice(0, plies.length) });
const texts = (looks) => looks.map(({ what, why }) => `${what}: ${why}`);

export function said(counts, cases) {
  for (const [line, expected] of cases("said")) {
    const looks = raisedIn(line.replace("look ", "")).map((raised) => textOfLook(lookOf(raised, PLIES)));
    counts.same(line, looks, [expected]);
  }
  const [suspected] = raisedIn("SUSPECT 3").map((raised) => lookOf(raised, PLIES));
  counts.same("a suspicion isn't about the third ply", suspected.what, "at the cable");
}

export function corrected(counts, cases) {
  for (const [name, steps, expected] of cases("corrected")) {
    const seen = steps.flatMap(([last, line]) => {
      const plies = [...PLIES.slice(0, 2), eventOf(`move ${last}`)];
      return raisedIn(line.replace("look ", "")).map((raised) => lookOf(raised, plies));
    });
    const { open } = seen.reduce((looks, look) => looks.withOneMore(look), new Looks());
    counts.same(name, open.map(textOfLook), expected);
  }
}

/** Alarms that were kept; the lines of the program then; what is open, and what of it is new. */
export function opened(counts) {
  const kept = { ply: lookAt("at 2. Nf3", GAP), cable: lookAt("at the cable", "its own board is back", "cable") };
  for (const [name, before, lines, open, news] of [
    ["nothing", [], [], [], []],
    ["one", [], ["at 3 AFTER-GAP"], [`at 2. Nf3: ${GAP}`], [`at 2. Nf3: ${GAP}`]],
    ["the kept one stands once", [kept.ply], ["at 3 AFTER-GAP"], [`at 2. Nf3: ${GAP}`], []],
    ["an older page has kept it", [lookAt("at 2. Nf3", GAP, "at 3")], ["at 3 AFTER-GAP"], [`at 2. Nf3: ${GAP}`], []],
    ["the program has less: all stay", [kept.ply, kept.cable], [], [`at 2. Nf3: ${GAP}`, "at the cable: its own board is back"], []],
    ["one more", [kept.cable], ["after 2 LATE"], ["at the cable: its own board is back", `after 1... e5: ${LATE}`], [`after 1... e5: ${LATE}`]],
    ["the ply is another move now", [lookAt("at 2. Nc3", GAP)], ["at 3 AFTER-GAP"], [`at 2. Nc3: ${GAP}`, `at 2. Nf3: ${GAP}`], [`at 2. Nf3: ${GAP}`]],
    ["two about one ply: the later one counts", [], ["at 3 LATE", "at 3 AFTER-GAP"], [`at 2. Nf3: ${GAP}`], [`at 2. Nf3: ${GAP}`]],
    ["and is no news when both are said again", [kept.ply], ["at 3 LATE", "at 3 AFTER-GAP"], [`at 2. Nf3: ${GAP}`], []],
    ["at a ply and after it", [kept.ply], ["after 3 AFTER-GAP"], [`at 2. Nf3: ${GAP}`, `after 2. Nf3: ${GAP}`], [`after 2. Nf3: ${GAP}`]],
    [
      "another move while the clock is stopped",
      [lookAt("since 1. e4", "a move was made while the clock was stopped: if the players only tried it, take it off here", "clock 1. e4")],
      ["since 1 STOPPED 2"],
      ["since 1. e4: 2 moves were made while the clock was stopped: if the players only tried them, take them off here"],
      ["since 1. e4: 2 moves were made while the clock was stopped: if the players only tried them, take them off here"],
    ],
  ]) {
    const alarms = new Alarms(before);
    const seen = alarms.raise(raisedIn(...lines), course());
    counts.same(name, [texts(alarms.looks.open), texts(seen)], [open, news]);
  }
}

/** Alarms of a game of three plies, at the bytes 100, 200 and 300; how many bytes it has at last; which of them stay. */
export function ended(counts) {
  for (const [line, size, stays] of [
    ["at 3 LATE", 301, true],
    ["at 3 LATE", 201, false],
    ["at 2 LATE", 201, true],
    ["after 3 AFTER-GAP", 301, true],
    ["after 3 AFTER-GAP", 201, false],
    ["after 2 AFTER-GAP", 301, true],
    ["since 2 STOPPED 1", 301, true],
    ["since 2 STOPPED 1", 201, false],
    ["since 1 STOPPED 2", 201, true],
    ["since 0 STOPPED 3", 101, true],
    ["after 5 AFTER-GAP", 201, true],
    ["SUSPECT 3", 1, true],
  ]) {
    const alarms = new Alarms();
    alarms.raise(raisedIn(line), course());
    alarms.end(size);
    counts.same(`${line}, and the game has ${size} bytes`, alarms.looks.open.length, stays ? 1 : 0);
  }
  const alarms = new Alarms([lookAt("at 2. Nf3", GAP)]);
  alarms.end(1);
  counts.same("one that was kept", texts(alarms.looks.open), [`at 2. Nf3: ${GAP}`]);
}

export function acknowledged(counts) {
  const alarms = new Alarms([lookAt("at the cable", "its own board is back", "cable")]);
  alarms.raise(raisedIn("at 3 LATE"), course());
  const seen = alarms.acknowledge();
  counts.same("all of them", seen, `LOOK at the cable: its own board is back; LOOK at 2. Nf3: ${LATE}`);
  counts.same("and none is open", alarms.looks.open, []);
  counts.same("it is raised once more", texts(alarms.raise(raisedIn("at 3 LATE"), course())), [`at 2. Nf3: ${LATE}`]);
}

/** The next game has the alarms of the one before; one of its own about the same ply takes the place of none. */
export function carried(counts) {
  const before = new Alarms();
  before.raise(raisedIn("at 3 LATE"), course());
  const alarms = new Alarms(before.looks.carried);
  alarms.raise(raisedIn("at 3 LATE"), course([...PLIES.slice(0, 2), eventOf("move 2. Bc4")]));
  counts.same("both", texts(alarms.looks.open), [`at 2. Nf3: ${LATE}`, `at 2. Bc4: ${LATE}`]);
}
