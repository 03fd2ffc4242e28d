// The round as the recorder sends it, through lost connections and sleeping computers.

import { Files } from './files.js';
import { SHARES, Source } from './source.js';

/**
 * @typedef {import('./card.js').Board} Board
 * @typedef {{ teams: string[], points: number[] | null, boards: number[], why?: string }} Match
 * @typedef {{ round?: string, late?: string, notice?: string, matches?: Match[] }} Said of a round, besides its event
 * @typedef {Said & { event: string, numbers: number[] }} Round
 * @typedef {Board & { kept?: { moves: number, positions: number } }} Sent without the moves and positions that the page has
 * @typedef {'connecting' | 'live' | 'silent' | 'lost' | 'stopped' | 'ended' | 'hidden'} How
 */

const FILES = 'files' in document.documentElement.dataset; // whether there is no recorder behind the page
const SILENT = FILES ? 20000 : 4000; // milliseconds without a word, after which the page says so: a beat comes every two or three seconds
const LOOK = 500;
const HIDDEN = SHARES ? 30000 : 0; // a page that nobody sees lets its connection go

export class Stream {
  /**
   * `changed(number)` is called for each board that has changed, or without a number for the round. `connected(how)` is called
   * with 'connecting', 'live', 'silent' if nothing comes, 'lost' if there is no connection, 'stopped' or 'ended' if what comes is
   * no longer renewed, and 'hidden' if nobody sees the page: a browser slows its timers then, so it couldn't say in time that
   * nothing comes.
   * @param {(number?: number, before?: Board) => void} changed
   * @param {(how: How) => void} connected
   */
  constructor(changed, connected) {
    this.changed = changed;
    this.tell = connected;
    /** @type {Map<number, Board>} */
    this.boards = new Map();
    this.event = '';
    /** @type {number[]} */
    this.numbers = [];
    /** @type {Said} */
    this.said = {}; // what else is said of the round
    this.offset = 0;
    this.sleeps = 0;
    /** @type {import('./source.js').Hear} */
    const hear = (kind, data) => this.hear(kind, data);
    this.source = FILES ? new Files(hear, () => this.say()) : new Source(hear, () => this.say(), () => this.known());
    document.addEventListener('visibilitychange', () => this.seen(!document.hidden));
    window.addEventListener('pageshow', () => this.seen(!document.hidden));
    window.addEventListener('pagehide', () => this.source.end());
    window.setInterval(() => this.look(), LOOK);
    if (SHARES) this.source.begin();
    this.seen(!document.hidden);
  }

  /** The recorder's time of day, in seconds. */
  now() {
    const { stands } = this;
    return stands === undefined ? performance.now() / 1000 + this.offset : stands;
  }

  /** When the recorder wrote last, if it no longer writes. */
  get stands() {
    return this.source.stands;
  }

  /** @type {import('./source.js').Hear} */
  hear(kind, data) {
    if (kind === 'beat') this.offset = data.now - performance.now() / 1000;
    else if (kind === 'round') this.takeRound(data);
    else this.takeBoard(data);
  }

  /**
   * All that is known, as it was heard.
   * @type {() => import('./source.js').Word[]}
   */
  known() {
    const round = { ...this.said, event: this.event, numbers: this.numbers };
    /** @type {import('./source.js').Word[]} */
    const boards = this.list().map((board) => ['board', board]);
    return [['beat', { now: this.now() }], ['round', round], ...boards];
  }

  /** @type {(round: Round) => void} */
  takeRound(round) {
    const { event, numbers, ...said } = round;
    this.event = event;
    this.numbers = numbers;
    this.said = said;
    for (const number of [...this.boards.keys()]) {
      if (!round.numbers.includes(number)) this.boards.delete(number);
    }
    this.changed();
  }

  /**
   * A board comes whole, or only with what is new in it.
   * @type {(board: Sent) => void}
   */
  takeBoard(board) {
    const before = this.boards.get(board.number);
    if (board.kept) {
      if (!before || before.moves.length < board.kept.moves || before.positions.length < board.kept.positions) {
        this.source.again();
        return;
      }
      board.moves = before.moves.slice(0, board.kept.moves).concat(board.moves);
      board.positions = before.positions.slice(0, board.kept.positions).concat(board.positions);
      delete board.kept;
    }
    this.boards.set(board.number, board);
    this.changed(board.number, before);
  }

  /** The known boards, in order. */
  list() {
    return this.numbers.flatMap((number) => this.boards.get(number) || []);
  }

  look() {
    this.source.look();
    this.say();
  }

  /** Shows the page's state. */
  say() {
    const { heard, wanted, isLost } = this.source;
    const now = performance.now();
    if (document.hidden) this.tell('hidden');
    else if (isLost) this.tell('lost');
    else if (now - heard <= SILENT) this.tell(this.source.how());
    else this.tell(now - wanted > SILENT ? 'silent' : 'connecting');
  }

  /** @type {(isSeen: boolean) => void} */
  seen(isSeen) {
    window.clearTimeout(this.sleeps);
    if (isSeen) this.source.begin();
    else if (HIDDEN) this.sleeps = window.setTimeout(() => this.source.end(), HIDDEN);
    else this.source.end();
    this.say();
  }
}
