/** The way back: what is asked and told. The program finds the ply and makes the capture anew. */
import { Looks, OVER } from "/web/game/alarms.js";
import { askedOf, playedSince, question, readBack, readInstead, refuseBack, refuseInstead, refuseNothing, settled, takenOut, takenUp, wordsOfBack, wordsOfInstead, wordsOfUndone } from "/web/game/typed.js";

const moveOf = ([number, san, clock]) => ({ kind: "move", number, san, clock, corrects: false });
const read = (status, said) => readBack({ status, errors: new TextEncoder().encode(`${said}\n`), output: new Uint8Array(2) });

export function plies(counts, cases) {
  const game = cases("plies").map(moveOf);
  for (const [stays, asked] of cases("questions")) {
    counts.same(`${stays} stay`, question(game.slice(stays)), asked);
  }
  for (const [stays, result, expected] of cases("told")) {
    counts.same(expected, wordsOfBack(game, stays, result), expected);
  }
  for (const [said, to, expected] of cases("refused")) {
    counts.same(said, refuseBack(read(1, `back: ${said}`), to, game).message, expected);
  }
  for (const [count, to, expected] of cases("nothing")) {
    const stays = count === 0 || to === "*" ? count : game.length;
    counts.same(to, counts.refused(to, "Refused", () => refuseNothing(game.slice(0, count), stays, "*", to)), expected);
  }
  counts.same("a result goes", refuseNothing(game, 12, "1-0", "*"), undefined);
  counts.same("a ply goes", refuseNothing(game, 11, "*", ""), undefined);
}

/** Other moves come in place of the last ones. */
export function instead(counts, cases) {
  const game = cases("plies").map(moveOf);
  const say = (status, said) => readInstead({ status, errors: new TextEncoder().encode(`instead: ${said}\n`), output: new Uint8Array(2) });
  for (const [said, line, told, asked] of cases("instead")) {
    const { stays, come, put } = say(0, said);
    counts.same(`${said}: put`, put.length, 2);
    counts.same(`${said}: asked`, question(game.slice(stays + come)), asked);
    counts.same(`${said}: told`, wordsOfInstead(game, stays, line, said.split(" ").pop()), told);
  }
  for (const [said, line, expected] of cases("no instead")) {
    counts.same(said, refuseInstead(say(1, said), line, null, game).message, expected);
  }
}

/** The line that was typed last is taken back. */
export function undone(counts, cases) {
  const game = cases("plies").map(moveOf);
  for (const [line, had, behind, result, has, more, now, told] of cases("undone")) {
    const [before, after] = [[...game.slice(0, had), ...behind.map(moveOf)], [...game.slice(0, has), ...more.map(moveOf)]];
    counts.same(told, wordsOfUndone(line, { plies: before, result }, { plies: after, result: now }), told);
  }
  const bytesOf = (text) => new TextEncoder().encode(text);
  for (const [kept, made, from, to, sent, left] of cases("taken out")) {
    counts.same(`${kept} and ${sent}`, new TextDecoder().decode(takenOut({ made, from, to }, bytesOf(sent), bytesOf(kept))), left);
  }
}

export function looks(counts, cases) {
  const game = cases("plies").map(moveOf);
  for (const [before, stays, after] of cases("settled")) {
    const left = new Looks(before.map((what) => ({ what, why: "why", about: "" }))).without(settled(game, stays));
    counts.same(`${stays} plies stay`, left.open.map((look) => look.what), after);
  }
  const [over, hidden] = [{ what: "after 6. Nf3", why: "why", about: OVER }, { what: "after 6. Nf3", why: "why", about: "" }];
  for (const [gone, left] of [[["at 6. Nf3"], [hidden]], [["at 5... Qd4", "since 6. Nf3"], [over, hidden]], [["after 6. Nf3"], []]]) {
    counts.same(`settled: ${gone}`, new Looks([over, hidden]).without(gone).open, left);
  }
}

export function answers(counts) {
  for (const [status, said, expected] of [
    [0, "back: plies 27, gone 3, result 1-0", { kind: "back", stays: 27, result: "1-0", put: [0, 0] }],
    [0, "back: plies 0, gone 0, result *", { kind: "back", stays: 0, result: "*", put: [0, 0] }],
    [1, "back: nearest 14. Bxf6+", { kind: "nearest", stays: 0, rest: "14. Bxf6+" }],
    [1, "back: none", { kind: "none", stays: 0, rest: "" }],
    [1, "back: moved 27 14... Qd7", { kind: "moved", stays: 27, rest: "14... Qd7" }],
    [1, "back: ended 27 0-1", { kind: "ended", stays: 27, rest: "0-1" }],
    [1, "back: signed 27 1-0", { kind: "signed", stays: 27, rest: "1-0" }],
    [1, "back: board 27", { kind: "board", stays: 27, rest: "" }],
    [1, "back: unseen 0", { kind: "unseen", stays: 0, rest: "" }],
    [1, "input: too long", { kind: "long", stays: 0, rest: "" }],
  ]) {
    counts.same(said, read(status, said), expected);
  }
  for (const [status, said] of [[3, "read fault"], [4, "memory"], [0, "back: none"], [1, "add: nothing"], [2, "back: none"], [1, ""]]) {
    counts.refused(`${status} ${said}`, "ProgramError", () => read(status, said));
  }
}

/** A game that is over goes on with `*`. */
export function takenUpAgain(counts, cases) {
  for (const [had, plies, expected] of cases("asked_of")) counts.same(`${had} of ${plies}`, askedOf(had, plies), expected);
  for (const [name, had, said, isThere, expected] of cases("taken_up")) {
    counts.same(`${name}: ${said}`, takenUp(had, read(said.startsWith("plies") ? 0 : 1, `back: ${said}`), isThere), expected);
  }
  const game = cases("plies").map(moveOf);
  for (const [count, stand, more, expected] of cases("played_since")) {
    counts.same(expected, playedSince(game.slice(0, count), [...game.slice(0, stand), ...more.map(moveOf)]), expected);
  }
}
