// The state of a board in an arbiter's words, which are those of dgt_round; and what a card shows of a board, in the same form as on the page
// of a round. The program decides which state it is. Pure.

import { NO_TIME } from '../child/report.js';
import { NO_PLIES, clocksOf } from '../game/course.js';
import { countingForfeit, scoreOf } from '../game/forfeits.js';
import { written } from '../game/options.js';
import { RECOVERS, YES } from '../game/typed.js';
import { DISK_FULL } from '../kept/capture.js';
import { lasting } from '../../live/show/page/chess.js';
import { linked, message } from '../../live/show/page/message.js';

/** @typedef {{ squares?: string[], result?: string, hint?: Words, disk?: Words, look?: Words, clockStopped?: boolean, fits?: string }} Beside */

const MOST_LISTED = 8;
export const TURNED_ROUND = message('state.turned_round');
const OTHER_BOARD = message('state.other_board');
const CLOCK_STOPPED = message('state.clock_stopped');

export const Kind = {
  WAITS: message('state.waits'),
  AGREES: message('state.agrees'),
  RESULT: message('state.result'),
  IN_HAND: message('state.in_hand'),
  WRONG: message('state.wrong'),
  NO_START: message('state.no_start'),
  SETTING_UP: message('state.setting_up'),
  SILENT: message('state.silent'),
  UNPLUGGED: message('state.unplugged'),
};
const KINDS = Object.fromEntries(Object.entries(Kind).map(([name, kind]) => [name.replace('_', '-'), kind])); // by the program's words
/** @type {{ [hint: string]: Message }} */
const HINTS = { 'TURNED-ROUND': TURNED_ROUND, 'OTHER-BOARD': OTHER_BOARD };
const ALARMS = [Kind.WRONG, Kind.NO_START, Kind.SILENT, Kind.UNPLUGGED];
const WITH_CLOCK = [Kind.AGREES, Kind.IN_HAND, Kind.WRONG]; // states in which a stopped clock is news

/** The state at a moment. `since` is null if it isn't known for how long it has been so. */
export class State {
  /** @param {Message} kind @param {number | null} since @param {Beside} beside */
  constructor(kind, since, { squares = [], result = '', hint = '', disk = '', look = '', clockStopped = false, fits = '' } = {}) {
    this.kind = kind;
    this.since = since;
    this.squares = squares;
    this.result = result;
    this.hint = hint;
    this.disk = disk;
    this.look = look;
    this.clockStopped = clockStopped;
    this.fits = fits; // what is typed for the change of the game that alone explains the board
  }

  /** The question whether it was played so; empty if nothing is asked. */
  get asks() {
    return this.fits ? askedOf(this.fits) : '';
  }

  /** Whether somebody must go to the board, or to the disk. */
  get isAlarm() {
    return Boolean(this.disk || this.hint || this.look) || ALARMS.includes(this.kind);
  }

  /** The squares that a page marks. */
  get differing() {
    return [Kind.WRONG, Kind.NO_START, Kind.IN_HAND].includes(this.kind) ? this.squares : [];
  }

  /** What is said of its clock; empty if nothing is. The hint that it is turned round leaves no room for more. */
  get clock() {
    return this.clockStopped && WITH_CLOCK.includes(this.kind) && this.hint !== TURNED_ROUND ? CLOCK_STOPPED : '';
  }

  /** What makes a state news: it is reported when this changes, not when only time passes. */
  get news() {
    const { kind, result, hint, disk, look, clock, squares, fits } = this;
    return [kind, result, hint, disk, look, clock, kind === Kind.WRONG ? squares : [], fits];
  }

  /** The state in words: those before its duration, and those after. Beyond a limit, squares are only counted.
   * @type {(mostListed?: number) => [front: Words, rest: Words]} */
  parts(mostListed = MOST_LISTED) {
    const { length } = this.squares;
    const words = length <= mostListed ? this.squares.join(' ') : message('state.squares', { count: length });
    /** @type {Words} */
    let front = this.kind;
    let rest = /** @type {Words} */ ('');
    if (this.kind === Kind.RESULT) front = linked('space', [front, this.result]);
    else if (words) rest = linked(this.kind === Kind.IN_HAND ? 'space' : 'colon', ['', words]);
    if (this.hint === TURNED_ROUND) {
      front = this.hint; // this says why it is being set up, and leaves no room for the state
      rest = '';
    } else if (this.hint) {
      rest = linked('semicolon', [rest, this.hint]);
    }
    if (this.look && (ALARMS.includes(this.kind) || this.hint)) {
      rest = linked('semicolon', [rest, this.look]);
    } else if (this.look) {
      rest = linked('semicolon', ['', linked('nothing', [front, rest])]);
      front = this.look;
    }
    if (this.clock) rest = linked('semicolon', [rest, this.clock]);
    if (this.asks) rest = linked('semicolon', [rest, this.asks]);
    return [this.disk ? linked('comma', [this.disk, front]) : front, rest];
  }

  /** @type {(now: number, mostListed?: number) => Words} the state in a line */
  text(now, mostListed = MOST_LISTED) {
    const [front, rest] = this.parts(mostListed);
    const { since } = this;
    const isLong = since !== null && now >= since + 1;
    const lasts = ALARMS.includes(this.kind) && isLong;
    return linked('nothing', [lasts ? message('state.since', { state: front, time: lasting(now - since) }) : front, rest]);
  }
}

/** @type {(fits: string) => Message} the question whether it was played so: moves, or others instead, or the last ones were taken back */
function askedOf(fits) {
  const [, word, rest] = /^(?:(back|instead|recover) )?(.*)$/.exec(fits) || [];
  let question = message('state.played', { moves: rest });
  if (word === RECOVERS) question = message('state.missed', { moves: rest });
  if (word === 'instead') question = message('state.played_instead', { moves: rest });
  if (word === 'back') question = rest === NO_PLIES ? message('state.taken_back_to_the_start') : message('state.taken_back', { last: rest });
  return message('state.if_so', { question, yes: YES });
}

/** The state that the program has said at this time. `differs` are the squares that its report has named last; `beside` has the game's
 * result, and what else the page knows.
 * @type {(said: Stands, at: number, differs: string[], beside: { result: string, disk: Words, look: Words, clockStopped: boolean }) => State} */
export function stateOf({ kind, lasted, squares, hint, fits }, at, differs, { result, ...beside }) {
  const since = lasted === null ? null : at - lasted / 1000;
  const named = KINDS[kind] === Kind.IN_HAND ? differs : squares;
  return new State(KINDS[kind], since, { ...beside, squares: named, result: result.replace('*', ''), hint: HINTS[hint] || '', fits });
}

/** @type {(course: Course) => string[]} the clocks as they run; if there is no clock, each player's time after his last move */
function clocks(course) {
  const { clock } = course;
  return clock && clock.white !== NO_TIME ? [clock.white, clock.black] : clocksOf(course.plies);
}

/** @type {(state: State, now: number) => Standing} a state's words without its duration, and when it began */
export function standing(state, now) {
  const { kind, since, isAlarm, differing } = state;
  const words = new State(kind, now, state).text(now);
  const isWaiting = kind === Kind.WAITS || state.hint === TURNED_ROUND;
  return { state: String(words), since: isWaiting ? null : since, alarm: isAlarm, differing, mend: state.asks ? message('mend.if_not', { mend: mendOf(state) }) : mendOf(state) };
}

/** @type {{ [kind: string]: Message }} */
const MENDS = {
  [String(Kind.WRONG)]: message('mend.wrong'),
  [String(Kind.NO_START)]: message('mend.no_start'),
  [String(Kind.SILENT)]: message('mend.silent'),
  [String(Kind.UNPLUGGED)]: message('mend.unplugged'),
};

/** @type {(state: { kind: Words, disk: Words }) => Words} what somebody may do about a state; empty if it isn't an alarm */
export function mendOf({ kind, disk }) {
  if (disk) return disk === DISK_FULL ? message('mend.disk_full') : message('mend.not_written');
  return MENDS[String(kind)] || '';
}

/** What somebody may do about a game that is over; empty if a mate or stalemate on the board has ended it.
 * @type {(course: Pick<Course, 'result' | 'isEndedByMove'>) => Words} */
export function mendOfOver({ result, isEndedByMove }) {
  const goesOn = message('mend.goes_on');
  if (result === '*') return linked('space', [message('mend.no_result'), goesOn]);
  return isEndedByMove ? '' : goesOn;
}

/** @type {(words: Words, looks?: Words, mend?: Words) => Standing} words alone, since nobody knows when that began */
export function resting(words, looks = '', mend = '') {
  const state = String(linked('semicolon', [...(looks ? [looks] : []), words]));
  return { state, since: null, alarm: Boolean(looks), differing: [], mend };
}

/** A board's number, its game and its state, as a card shows them. Each move is shown with its position.
 * @type {(number: number, game: { options: Options, name: string, forfeit?: string }, course: Course, stands: Standing) => View & { name: string }} */
export function viewOf(number, { options, name, forfeit = '' }, course, stands) {
  const plies = course.plies.slice(0, Math.max(0, course.fens.length - 1));
  return {
    number,
    name,
    white: written(options, 'White'),
    black: written(options, 'Black'),
    result: course.result,
    forfeit: scoreOf(countingForfeit(forfeit, course.plies.length, course.result)),
    ratings: [written(options, 'WhiteElo'), written(options, 'BlackElo')],
    clocks: clocks(course),
    runs: '', // the board itself reports every second
    at: null,
    moves: plies.map(({ san, clock, corrects }) => ({ san, clock, kind: corrects ? 'correction' : 'move' })),
    positions: [...course.fens],
    pgn: '#',
    ...stands,
    mend: String(stands.mend),
  };
}
