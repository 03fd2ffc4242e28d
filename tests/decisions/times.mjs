/** The lines of NAME.times, and a clock that counts on. */
import { begunWith, cut, digest, heading, inParts, isEarlier, isOf, kept, lineAfter, lines, toldOf, toldOfOther, withAdded } from "/web/game/times.js";
import { stoodStill } from "/web/run/loop.js";

const OF_A = "1 times 0\n1 digest 12638187200555641996\n"; // the capture began with the letter a
const whole = (text) => text.replace("@", OF_A);
const bytesOf = (text) => new TextEncoder().encode(text);

export function digests(counts, cases) {
  for (const [text, value] of cases("digests")) {
    counts.same(text, digest(bytesOf(text)).toString(16), value);
  }
  for (const [generation, first, expected] of cases("headings")) {
    counts.same(expected, heading(generation, bytesOf(first)), expected);
  }
}

export function files(counts, cases) {
  for (const [name, front, rest, covered] of cases("files")) {
    const { digest: ofFirst, ...found } = kept(whole(front) + rest);
    const expected = { generation: 0, size: 1, begins: OF_A.length, ends: whole(front).length, covered };
    counts.same(name, { ...found, digest: String(ofFirst) }, { ...expected, digest: "12638187200555641996" });
  }
  for (const text of cases("unreadable")) {
    counts.same(text, kept(text), null);
  }
  for (const [text, version] of cases("newer")) {
    counts.same(text, kept(text), { version });
  }
}

export function written(counts, cases) {
  for (const [began, events, expected] of cases("written")) {
    counts.same(expected, lines(events, began), expected);
  }
}

export function cuts(counts, cases) {
  const text = `${OF_A}0 begin 1\n12 heard 67\n20 asked 1\n30 heard 10\n40 over 78\n50 heard 5\n60 ok\n`;
  for (const [size, left] of cases("cuts")) {
    counts.same(`${size} bytes`, cut(text, kept(text), size, bytesOf("a".slice(0, size))), whole(left));
  }
}

export function begun(counts, cases) {
  const text = `${OF_A}0 begin 1\n12 heard 67\n20 asked 1\n30 heard 10\n40 over 78\n50 heard 5\n60 ok\n`;
  for (const [generation, size, begins] of cases("begun with")) {
    for (const first of ["a", "ab"]) counts.same(`${size} bytes of ${first}`, begunWith(text, generation, size, bytesOf(first.slice(0, size))), begins);
  }
  for (const unreadable of cases("unreadable")) counts.same(unreadable, begunWith(unreadable, 1, 1, bytesOf("a")), "");
}

export function parts(counts) {
  const front = "0 begin 1\n12 heard 4\n";
  const of = (events, bytes) => [events && heading(0, bytesOf(bytes)) + events, bytes];
  for (const [name, text, capture, expected] of [
    ["a short capture", `${OF_A}${front}`, "abcd", [[`${OF_A}${front}`, "abcd"]]],
    [
      "an event with more bytes",
      `${OF_A}0 begin 1\n12 heard 9\n`,
      "abcdefghij",
      [of("0 begin 1\n12 heard 3\n", "abcd"), of("12 heard 4\n", "efgh"), of("12 heard 2\n", "ij")],
    ],
    [
      "a call with more before it",
      `${OF_A}0 begin 1\n0 begin 10\n`,
      "abcdefghij",
      [of("0 begin 1\n", "abcd"), ["", "efgh"], of("0 begin 2\n", "ij")],
    ],
    [
      "more than the capture has",
      `${OF_A}${front}5 heard 9\n6 heard 9\n`,
      "abcdefghi",
      [of(front, "abcde"), of("5 heard 9\n6 heard 9\n", "fghi")],
    ],
    ["an event with a few more", `${OF_A}${front}`, "abcdefg", [of(front, "abcde"), ["", "fg"]]],
    [
      "a call that begins with more bytes",
      `${OF_A}${front}20 gone\n0 begin 8\n0 away 500\n5 heard 3\n`,
      "abcdefghijk",
      [of(front, "abcde"), of("20 gone\n0 begin 3\n0 away 500\n5 heard 3\n", "fghijk")],
    ],
    [
      "one that begins with fewer",
      `${OF_A}${front}0 begin 2\n5 heard 2\n`,
      "abcdefg",
      [of(front, "abcde"), of("0 begin 0\n5 heard 2\n", "fg")],
    ],
    ["what happens behind all bytes", `${OF_A}${front}20 over 5\n`, "abcde", [of(`${front}20 over 5\n`, "abcde")]],
    ["without times", "", "abcdefghij", [["", "abcd"], ["", "efgh"], ["", "ij"]]],
    ["with those of another capture", "1 times 0\n1 digest 5\n", "abcde", [["", "abcd"], ["", "e"]]],
  ]) {
    const seen = inParts(text, bytesOf(capture), 4);
    counts.same(name, seen.map((part) => [part.text, new TextDecoder().decode(part.bytes)]), expected);
  }
}

export function told(counts, cases) {
  for (const [text, have, expected] of cases("told")) {
    const file = whole(text);
    const seen = toldOf(kept(file), "g.times", file.length, "g.dgt", have);
    counts.same(text, seen, expected.map((one) => `${one} Nothing is to be done`));
  }
}

export function whose(counts) {
  for (const [name, text, capture, expected] of [
    ["the capture's", OF_A, "abc", true],
    ["another one's", OF_A, "bcd", false],
    ["of more bytes than there are", "1 times 0\n2 digest 5\n", "a", false],
    ["of no byte", "1 times 0\n0 digest 14695981039346656037\n", "a", true],
    ["beside nothing", "1 times 0\n0 digest 14695981039346656037\n", "", false],
    ["a newer program's", "2 times 0\n", "abc", false],
    ["unreadable", "", "abc", false],
  ]) {
    counts.same(name, isOf(kept(text), bytesOf(capture)), expected);
  }
}

export function others(counts) {
  for (const [text, why] of [
    ["1 times 0\n1 digest 5\n", "is of another capture"],
    ["2 times 0\n", "is of a newer program"],
    ["0 begin 1\n", "isn't readable"],
  ]) {
    const expected = `g.times ${why}: it is kept as g.other.times, and another one is begun. Nothing is to be done`;
    counts.same(why, toldOfOther(kept(text), "g.times", "g.other.times"), expected);
  }
}

export function added(counts) {
  const before = `${OF_A}0 begin 1\n5 opened\n`;
  for (const [name, text, size, count, capture, expected] of [
    ["at its end", `${before}6 over 1\n`, 1, 2, "a??", `${before}0 begin 1\n0 added 2\n0 over 3\n`],
    ["before other bytes", `${before}6 over 1\n7 heard 3\n`, 1, 2, "a??bcd", `${before}0 begin 6\n0 over 3\n`],
    ["to a game without times", "", 1, 2, "a??", ""],
    ["beside another one's", "1 times 0\n1 digest 5\n", 1, 2, "a??", "1 times 0\n1 digest 5\n"],
  ]) {
    counts.same(name, withAdded(text, size, count, bytesOf(capture)), expected);
  }
}

export function earlier(counts) {
  const front = `${OF_A}0 begin 1\n12 heard 67\n`;
  for (const [name, found, now, expected] of [
    ["the same", front, front, true],
    ["with fewer lines", front, `${front}20 heard 5\n`, true],
    ["with more lines", `${front}20 heard 5\n`, front, false],
    ["it was over, and goes on", `${front}20 over 68\n21 heard 5\n`, `${front}21 heard 5\n30 heard 5\n`, true],
    ["another call", front, `${OF_A}0 begin 1\n13 heard 67\n`, false],
    ["nothing", "", front, true],
    ["something else", "mine", front, false],
  ]) {
    counts.same(name, isEarlier(found, now), expected);
  }
}

export function line(counts) {
  for (const [words, what, after] of [
    [[], "opened", ["opened"]],
    [["opened"], "answered", ["opened", "answered"]],
    [["opened", "answered"], "took", ["opened", "answered"]],
    [["opened"], "gone", ["gone"]],
    [["opened", "answered"], "called", []],
  ]) {
    counts.same(`${words} ${what}`, lineAfter(words, what), after);
  }
}

export function countsOn(counts) {
  for (const [name, before, now, waited, seconds] of [
    ["a turn", [100, 5000], [100.25, 5000.25], 0.25, 0],
    ["stopped: both clocks went on", [100, 5000], [135, 5035], 0.25, 0],
    ["asleep, and one clock stood still", [100, 5000], [100.25, 5035.25], 0.25, 35],
    ["it stood still for a part of the sleep", [100, 5000], [110, 5035], 0.25, 25],
    ["a sleep of four seconds isn't noticed", [100, 5000], [100.25, 5004.25], 0.25, 0],
    ["the clock on the wall is put back by an hour", [100, 5000], [100.25, 1400.25], 0.25, 0],
    ["it is put forward by an hour: nothing tells that from a sleep", [100, 5000], [100.25, 8600.25], 0.25, 3600],
  ]) {
    const turn = ([running, counting]) => ({ running, counting });
    counts.same(name, stoodStill(turn(before), turn(now), waited), seconds);
  }
}
