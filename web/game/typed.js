// What somebody types in a line: the page's own commands; what the program answers to moves, a result or a way back, in sentences; and what
// is asked first. The program decides what a line means, which plies go, and makes the new capture. Pure: docs/FORMATS.md has its lines.

import { ProgramError, endedWith } from '../child/program.js';
import { shortOf } from '../child/report.js';
import { joined } from '../line/protocol.js';
import { Complaint, linked, message, plural } from '../../live/show/page/message.js';
import { BOTH, typedForfeit } from './forfeits.js';

/** What is asked for: the program is to go back to a ply, or to read a line; the game isn't played; or a word alone, where `reopened` says
 * that a result is to be taken off.
 * @typedef {ChangeTyped | { kind: 'nothing' } | { kind: 'quit' } | { kind: 'acknowledged' } | { kind: 'accepted' } |
 * { kind: 'helped' }} Typed */

export const YES = 'y'; // it was played as the page has asked
export const RECOVERS = 'recover'; // two plies are put in that no picture showed
const NOUGHTS = '0-0'; // a result, or castling typed with noughts
export const WAYS = message('typed.ways');
export const ABSENT = message('typed.absent'); // what can be typed too if the game has no move
export const HELP = message('typed.all_ways_or_absent', { absent: ABSENT });
export const BOTH_LOSE = message('typed.noughts', { noughts: NOUGHTS });
export const WHICH_PLY = message('back.which_ply');
export const NOTHING_ASKED = message('typed.nothing_asked');
export const JUST_ASKED = message('typed.just_asked');
export const ASKED_ANEW = message('typed.asked_anew');
export const WHICH_MOVES = message('instead.which_moves');
const HELPS = ['help', '?'];
export const UNDO = 'undo';
const SHOWN = 60; // characters of what was typed that an answer repeats
const SHORT = 20; // characters of a word that it repeats

/** What was typed isn't done. Its message says why, and what to type. */
export class Refused extends Complaint {}

/** What was typed would remove a lot: it is done if it is typed again. */
export class Asked extends Refused {}

/** @type {(text: string) => Typed} what is asked for in a line */
export function readWords(text) {
  const words = text.split(/\s+/u).filter((word) => word);
  if (words.length === 0) return { kind: 'nothing' };
  const first = words[0].toLowerCase();
  if (HELPS.includes(first)) return { kind: 'helped' };
  if (first === 'back') return { kind: 'back', to: plyOf(words.slice(1).join(' ')) };
  if (first === RECOVERS) return { kind: 'recover', moves: words.slice(1).join(' ') };
  if (first === 'instead') return { kind: 'instead', line: movesOfLine(words.slice(1).join(' ')) };
  if (first === UNDO && words.length > 1) throw new Refused(message('undo.alone'));
  const alone = words.length === 1 ? first : '';
  if (alone === 'q' || alone === 'quit') return { kind: 'quit' };
  if (alone === 'ok') return { kind: 'acknowledged' };
  if (alone === YES) return { kind: 'accepted' };
  if (alone === '*') return { kind: 'reopened' };
  if (alone === UNDO) return { kind: 'undo' };
  const forfeit = typedForfeit(text);
  if (forfeit) return { kind: 'forfeit', forfeit };
  if (withAHyphen(words.join('')) === NOUGHTS) throw new Refused(message('forfeit.noughts', { no_score: BOTH_LOSE, both: BOTH }));
  return { kind: 'added', line: text.trim() };
}

/** @type {(word: string) => string} a score with one kind of dash */
const withAHyphen = (word) => word.replace(/[–—−:]/g, '-');

/** @type {(text: string) => string} `14.Bxf6` is `14. Bxf6`; a number alone would be taken for a number of plies */
function plyOf(text) {
  if (/^[0-9]+$/.test(text) && text !== '0') throw new Refused(WHICH_PLY);
  const [, number, stops, san] = /^0*([0-9]+)((?: ?[.…])+) ?(.*)$/u.exec(text) || [];
  if (!number) return text;
  const isWhite = stops.trim() === '.';
  return `${number}${isWhite ? '.' : '...'} ${san}`.trim();
}

/** @type {(text: string) => string} what follows `instead`; the number of its first move says where */
function movesOfLine(text) {
  const [, number, stops, moves] = /^([0-9]+)((?: ?[.…])+) ?(.*)$/u.exec(text) || [];
  if (!number) throw new Refused(WHICH_MOVES);
  return `${number}${stops.replaceAll(' ', '')} ${moves}`.replaceAll('…', '...').trim();
}

/** @type {(text: string) => string} the text with `?` for each character that can't be printed */
export function printable(text) {
  return [...text].map((letter) => (/^(?:[\p{L}\p{M}\p{N}\p{P}\p{S}]| )$/u.test(letter) ? letter : '?')).join('');
}

/** @type {(text: string) => string} the beginning of a text, with only what can be printed */
export function shortened(text) {
  const shown = [...printable(text.trim())];
  return shown.length <= SHORT ? shown.join('') : `${shown.slice(0, SHORT).join('')}..`;
}

/** @type {(text: string, error: Error) => Words} the answer to what was typed, if that isn't done, or not yet */
export function refusal(text, error) {
  const why = error.message;
  if (error instanceof Asked) return why;
  if (why.includes(text)) return message('refused.why', { why });
  return message('refused.line', { line: printable([...text].slice(0, SHOWN).join('')), why });
}

/** What a command has said of a line: with the bytes to add, if there are any.
 * @typedef {{ kind: string, words: string[], put: Uint8Array | null }} Said */

const TOO_LONG = 'input: too long';
const NUMBERED = /^[0-9]+\s+(?:[A-Za-z*]|[01½][-–—−:/.]|[+-][+-])/; // a line that begins as in a round
const OK_NUMBERED = /^ok\s+([0-9]+)$/i;
const NUMBER = /^[0-9]+\.+/; // of a move

const NOTHING_ADDED = message('typed.nothing_added');
/** @type {{ [kind: string]: Message }} */
const SENTENCES = {
  mixed: message('typed.mixed'),
  ended: message('typed.ended_on_the_board', { nothing_added: NOTHING_ADDED }),
  board: message('typed.board_would_change'),
  long: message('typed.capture_full', { nothing_added: NOTHING_ADDED }),
};

/** @type {(command: string, outcome: Outcome) => Said} throws ProgramError if it gave no answer */
export function readAnswer(command, { status, errors, output }) {
  const said = new TextDecoder().decode(errors).trim();
  const [front, rest] = said.startsWith(`${command}: `) ? ['', said.slice(command.length + 2)] : [said, ''];
  const [kind, ...words] = rest.split(/\s+/u).slice(0, 4);
  if (kind && status === 0) return { kind, words, put: output };
  if (kind && status === 1) return { kind, words, put: null };
  if (front === TOO_LONG && status === 1) return { kind: 'long', words, put: null };
  throw new ProgramError(linked('colon', [endedWith(command, status), said]));
}

/** @type {(said: Said, line: string, plies: string[]) => Words} what is added; of a result also what it ends */
export function meaning({ kind, words }, line, plies) {
  if (kind !== 'result') return line.trim().split(/\s+/u).join(' ');
  return message('result.added', { result: words[0], where: whatEnds(plies) });
}

/** @type {(plies: string[]) => Message} where a result ends a game with these plies */
function whatEnds(plies) {
  if (plies.length === 0) return message('result.before_the_first_move');
  return plural('result.after', plies.length, { last: plies[plies.length - 1] });
}

/** @type {(said: Pick<Said, 'kind' | 'words'>, line: string, place: Words) => Refused} why it adds nothing */
export const refuse = (said, line, place) => new Refused(whyNothing(said, line, place));

/** @type {(said: Pick<Said, 'kind' | 'words'>, line: string, place: Words) => Message} */
function whyNothing({ kind, words }, line, place) {
  if (NUMBERED.test(line.trim()) && ['unknown', 'mixed'].includes(kind)) return message('typed.number_in_front', { ways: WAYS });
  const [, number] = OK_NUMBERED.exec(line.trim()) || [];
  if (number) return message('typed.ok_alone', { ok: 'ok', number });
  if (Object.hasOwn(SENTENCES, kind)) return SENTENCES[kind];
  if (kind === 'illegal') return message('typed.illegal', { word: words[1], place, nothing_added: NOTHING_ADDED });
  if (kind === 'misnumbered') {
    return message('typed.misnumbered', { number: numberIn(words[1]), place, nothing_added: NOTHING_ADDED });
  }
  if (kind === 'meant') return message('typed.meant', { written_so: writtenSo(words[1], words[2]), nothing_added: NOTHING_ADDED });
  if (kind === 'unknown') return message('typed.neither', { word: shortened(words[1]), ways: WAYS });
  return message('typed.no_move', { line: shortened(line), ways: WAYS });
}

/** @type {(word: string) => string} the number before a move, with its stops */
function numberIn(word) {
  const [number] = NUMBER.exec(word) || [''];
  return number;
}

/** @type {(word: string, meant: string) => Message} the message that a move is to be written otherwise */
const writtenSo = (word, meant) => message('spelling.write', { word, meant, how: howWritten(word, meant) });

/** @type {(word: string, meant: string) => Message} */
function howWritten(word, meant) {
  if (word.replace(/[,;]+$/, '') === meant) return message('spelling.no_commas');
  if (meant.startsWith('O-O')) return message('spelling.castling');
  if (word.replace(/[^0-9]/g, '').length > 1) return message('spelling.piece_and_square'); // it has both squares
  return meant.includes('=') && /[0-9]$/.test(word) ? message('spelling.promotion') : message('spelling.pieces');
}

/** Where in a game with these moves a line goes wrong; empty if that isn't said. Before a move that isn't legal, who is to move; before one
 * with a wrong number, the right one.
 * @type {(said: Said, fen: string | null, played: string[], line: string) => Words} */
export function placeOf({ kind, words }, fen, played, line) {
  if (!['illegal', 'misnumbered'].includes(kind)) return '';
  const typed = line.split(/\s+/u).map((word) => word.replace(NUMBER, '')).filter((word) => word);
  const sans = [...played, ...typed.slice(0, Number(words[0]))];
  const half = firstHalf(fen) + sans.length;
  const mover = half % 2 === 1 ? message('typed.black_to_move') : message('typed.white_to_move');
  const place = kind === 'misnumbered' ? message('typed.next_number', { number: numberOf(half) }) : mover;
  return sans.length === 0 ? place : message('typed.after_a_move', { place, last: `${numberOf(half - 1)} ${sans[sans.length - 1]}` });
}

/** @type {(fen: string | null) => number} the half-move of this start: twice its number, and one more for Black's */
function firstHalf(fen) {
  const fields = (fen || '').split(' ').filter((field) => field);
  return 2 * (Number(fields[5]) || 1) + (fields[1] === 'b' ? 1 : 0);
}

/** @type {(half: number) => string} the number of a half-move, as `14.` or `14...` */
const numberOf = (half) => `${Math.floor(half / 2)}${half % 2 === 1 ? '...' : '.'}`;

export const [THIS, UNPLAYED, UNENDED] = ['this', 'unplayed', 'unended'];

/** The game that is on has so many plies. The one before lacks a result, or has one; null if there is none before. The result is for `this`
 * game; or the arbiter is to say which one he means, since this one is `unplayed`, or that one `unended`.
 * @type {(plies: number, isBeforeUnended: boolean | null) => string} */
export function whichGame(plies, isBeforeUnended) {
  if (isBeforeUnended === null) return THIS;
  if (plies === 0) return UNPLAYED;
  return isBeforeUnended ? UNENDED : THIS;
}

const NO_RESULT = '*';
const WITHOUT_A_QUESTION = 2; // plies that may go without a question
const DONE = /^plies ([0-9]+), gone ([0-9]+), result (\S+)$/;
const STILL_SHOWN = ['moved', 'signed', 'board', 'unseen']; // why it can't be as long as the board stands as it does
export const [AS_IT_IS, ANEW, CUT, REFUSED] = ['as it is', 'anew', 'cut', 'refused']; // how a game that is over goes on with `*`

/** @type {(outcome: Outcome) => Back} throws ProgramError if it gave no answer */
export function readBack({ status, errors, output }) {
  const said = new TextDecoder().decode(errors).trim();
  const [, rest] = /^back: ([^]+)$/.exec(said) || [];
  const done = DONE.exec(rest || '');
  if (status === 0 && done) return { kind: 'back', stays: Number(done[1]), result: done[3], put: output };
  const [kind, ...words] = (rest || '').split(' ');
  if (status === 1 && said === 'input: too long') return { kind: 'long', stays: 0, rest: '' };
  if (status !== 1 || !kind) throw new ProgramError(linked('colon', [endedWith('back', status), said]));
  if (kind === 'nearest' || kind === 'none') return { kind, stays: 0, rest: words.join(' ') };
  return { kind, stays: Number(words[0]), rest: words.slice(1).join(' ') };
}

const REPLACED = /^plies ([0-9]+), gone [0-9]+, come ([0-9]+), result (\S+)$/;

/** @type {(outcome: Outcome) => Instead} throws ProgramError if it gave no answer */
export function readInstead(outcome) {
  const [, rest] = /^instead: ([^]+)$/.exec(new TextDecoder().decode(outcome.errors).trim()) || [];
  const done = REPLACED.exec(rest || '');
  if (outcome.status === 0 && done) return { kind: 'plies', stays: Number(done[1]), come: Number(done[2]), put: outcome.output };
  const { kind, words } = readAnswer('instead', outcome);
  return { kind, words };
}

/** Why a game with these plies doesn't get the moves of a line.
 * @type {(said: Instead, line: string, fen: string | null, plies: Move[]) => Refused} */
export function refuseInstead({ kind, words = [] }, line, fen, plies) {
  const number = numberIn(line);
  const before = plies.slice(0, Math.max(halfOf(number) - firstHalf(fen), 0));
  switch (kind) {
    case 'nearest':
    case 'none':
      return new Refused(message('instead.no_ply', { number, next: nextNumber(fen, plies) }));
    case 'old':
      return new Refused(message('instead.old', { ply: reached(plies) }));
    case 'moved':
      return new Refused(message('instead.moved', { moves: words.slice(1).join(' ') }));
    case 'signed':
      return new Refused(message('back.kings', { result: words[1] }));
    case 'unseen':
      return new Refused(message('back.unseen'));
    case 'long':
      return new Refused(message('back.capture_full'));
    case 'board':
      return new Refused(message('instead.board'));
    default:
      return refuse({ kind, words }, line, placeOf({ kind, words, put: null }, fen, before.map(({ san }) => san), line));
  }
}

/** @type {(number: string) => number} the half-move with a number, as `14.` or `14...` */
const halfOf = (number) => 2 * Number.parseInt(number, 10) + (number.endsWith('..') ? 1 : 0);

/** @type {(fen: string | null, plies: Move[]) => string} the number of the move that comes next */
const nextNumber = (fen, plies) => numberOf(firstHalf(fen) + plies.length);

/** @type {(said: Back) => boolean} whether the game could go back if the board stood otherwise */
export const isStillShown = ({ kind }) => STILL_SHOWN.includes(kind);

/** Why a game with these plies doesn't go back as far as `to` says.
 * @type {(said: { kind: string, stays?: number, rest?: Words }, to: string, plies: Move[]) => Refused} */
export function refuseBack({ kind, stays, rest }, to, plies) {
  return new Refused(whyNotBack(kind, plies.slice(0, stays), rest, to, plies));
}

/** @type {(kind: string, kept: Move[], rest: Words | undefined, to: string, plies: Move[]) => Words} */
function whyNotBack(kind, kept, rest, to, plies) {
  switch (kind) {
    case 'nearest':
      if (!/^[0-9]+\./.test(to)) return WHICH_PLY;
      return rest === reached(plies) ? message('back.no_ply_end', { to, near: rest }) : message('back.no_ply_near', { to, near: rest });
    case 'none':
      return to ? message('back.none_left') : message('moves.no_move');
    case 'ended':
      return message('back.ends_on_the_board', { ply: reached(kept) });
    case 'signed':
      return message('back.kings', { result: rest });
    case 'moved':
      return linked('stop', [message('back.still_shown', { moves: rest }), hint(kept)]);
    case 'unseen':
      return message('back.unseen');
    case 'long':
      return message('back.capture_full');
    default:
      return linked('stop', [message('typed.would_change'), hint(kept)]);
  }
}

/** @type {(kept: Move[]) => Message} what to do so that it can go back to these plies */
const hint = (kept) => (kept.length === 0 ? message('back.hint_at_the_start') : message('back.hint', { ply: reached(kept) }));

/** @type {(plies: Move[], stays: number, result: string, to: string) => void} if a game that goes on has nothing to take off */
export function refuseNothing(plies, stays, result, to) {
  if (stays < plies.length || result !== '*') return;
  if (to === '*') throw new Refused(message('result.none'));
  throw new Refused(stays > 0 ? message('back.already', { ply: reached(plies) }) : message('moves.no_move'));
}

/** @type {(gone: Move[]) => Words} the question before so many plies go; empty if they may go at once */
export function question(gone) {
  const many = gone.length > WITHOUT_A_QUESTION;
  return many ? message('back.asks', { count: gone.length, ply: shortOf(gone[0]) }) : '';
}

/** @type {(plies: Move[]) => string} `14... Qd7 15. Rd1 Rae8` */
const movesOf = (plies) => plies.map((ply, at) => (at > 0 && ply.number.endsWith('...') ? ply.san : shortOf(ply))).join(' ');

/** @type {(plies: Move[]) => Words} the ply with which a game ends, or its start */
export const reached = (plies) => (plies.length > 0 ? shortOf(plies[plies.length - 1]) : message('ply.the_start'));

/** @type {(plies: Move[], stays: number, result: string) => Words} `back to 14. Bxf6; taken off: 14... Qd7 15. Rd1` */
export function wordsOfBack(plies, stays, result) {
  const gone = plies.slice(stays);
  const parts = [message('back.done', { ply: reached(plies.slice(0, stays)) })];
  parts.push(gone.length > 0 ? message('back.taken_off', { plies: movesOf(gone) }) : message('back.none_off'));
  if (result !== '*') parts.push(message('back.result_gone', { result }));
  return linked('semicolon', parts);
}

/** @type {(plies: Move[], stays: number, line: string, result: string) => Words} `now 14. O-O Qd7; taken off: 14... Nf6` */
export function wordsOfInstead(plies, stays, line, result) {
  const gone = plies.slice(stays);
  const parts = [message('instead.done', { moves: line.trim().split(/\s+/u).join(' ') })];
  if (gone.length > 0) parts.push(message('back.taken_off', { plies: movesOf(gone) }));
  if (result !== '*') parts.push(message('back.result_gone', { result }));
  return linked('semicolon', parts);
}

/** The capture as if a line hadn't been typed that has put this in, given all that it has now, and what is kept from before the line.
 * @type {(put: Pick<PutIn, 'made' | 'from' | 'to'>, sent: Uint8Array, kept: Uint8Array) => Uint8Array} */
export const takenOut = ({ made, from, to }, sent, kept) => joined(kept, sent.subarray(made, Math.max(made, from)), sent.subarray(Math.max(made, to)));

/** @type {(before: Move[], now: Move[]) => number} with how many plies two games begin alike */
export function alike(before, now) {
  const other = before.findIndex(({ san }, at) => !now[at] || now[at].san !== san);
  return other < 0 ? before.length : other;
}

/** What a typed line has done is undone: the game had these plies and this result, and has those now.
 * @type {(line: string, before: { plies: Move[], result: string }, now: { plies: Move[], result: string }) => Words} */
export function wordsOfUndone(line, before, now) {
  const gone = before.plies.slice(alike(before.plies, now.plies));
  const parts = [message('undo.done', { line: printable([...line].slice(0, SHOWN).join('')) })];
  if (gone.length > 0) parts.push(message('back.taken_off', { plies: movesOf(gone) }));
  const { length } = now.plies;
  parts.push(length > 0 ? plural('undo.plies', length, { last: reached(now.plies) }) : message('undo.no_ply'));
  if (now.result === NO_RESULT && before.result !== NO_RESULT) parts.push(message('back.result_gone', { result: before.result }));
  else if (now.result !== before.result) parts.push(message('undo.result', { result: now.result }));
  return linked('semicolon', parts);
}

/** @type {(line: string, gone: Move[]) => Words} the question before plies go that were made since a line; empty if they may go at once */
export function questionOfUndo(line, gone) {
  const since = gone.slice(line.split(/\s+/).filter((word) => /^[A-Za-z]/.test(word)).length);
  return since.length > WITHOUT_A_QUESTION ? message('undo.asks', { count: since.length, ply: shortOf(since[0]) }) : '';
}

/** @type {(line: string, why: Words) => Message} the line that was obeyed last can't be undone */
export const cannot = (line, why) => message('undo.cannot', { line: printable([...line.trim()].slice(0, SHOWN).join('')), why });

/** How far the program is asked to go back, given all that the board has sent, if a game with this result and so many plies is over and goes
 * on. What was played since stays, but behind no result: then that may be a set-up, or what was taken off.
 * @type {(had: string, plies: number) => string} */
export const askedOf = (had, plies) => (had === NO_RESULT ? String(plies) : NO_RESULT);

/** How that game goes on, by what the program says then: `as it is`, since the board has taken the result off itself; with a capture that is
 * made `anew`; `cut` behind its last ply; or `refused`. What a board shows forbids it only as long as the board's device is there: nobody
 * can set pieces right on another one.
 * @type {(had: string, said: Back, isThere: boolean) => string} */
export function takenUp(had, said, isThere) {
  if (said.kind === 'back') return said.result === NO_RESULT && had !== NO_RESULT ? AS_IT_IS : ANEW;
  return isStillShown(said) && !isThere ? CUT : REFUSED;
}

/** More of the message that a game goes on: how its last ply was corrected after its result, and the plies that were made since.
 * @type {(before: Move[], now: Move[]) => Words} */
export function playedSince(before, now) {
  const last = before.length - 1;
  const isOther = last >= 0 && last < now.length && before[last].san !== now[last].san;
  const corrected = isOther ? [message('back.corrected', { before: shortOf(before[last]), now: shortOf(now[last]) })] : [];
  const since = now.slice(before.length);
  return linked('semicolon', ['', ...corrected, ...(since.length > 0 ? [message('back.played_since', { plies: movesOf(since) })] : [])]);
}

/** The alarms that end if only so many plies stay: those about plies that are gone, and about moves since the last one that stays.
 * @type {(plies: Move[], stays: number) => Message[]} */
export function settled(plies, stays) {
  const gone = plies.slice(stays).map(shortOf);
  if (gone.length === 0) return [];
  const since = [reached(plies.slice(0, stays)), ...gone];
  return [...gone.map((ply) => message('look.at', { ply })), ...since.map((ply) => message('look.since', { ply }))];
}
