// One game, large, with its moves. A reader can step through them while it goes on.

import { NAMES, aheadOf, numbered, outcomeOf, spokenPly, takenOf, toMove, withNumber } from './chess.js';
import { clockAt } from './clock.js';
import { Table, element, positionOf, say } from './diagram.js';
import { linked, message, plural } from './message.js';
import { showPlayer, whereFrom } from './names.js';
import { sheetOf } from './sheet.js';

/**
 * @typedef {import('./card.js').Board} Board
 * @typedef {import('./card.js').Move} Move
 * @typedef {import('./message.js').Words} Words
 */

/** @typedef {{ move: Move, place: HTMLButtonElement }} Made */

/** @type {(name: string) => HTMLElement} */
const at = (name) => /** @type {HTMLElement} */ (document.getElementById(name));

export class GameView {
  /**
   * `stepped()` is called when a reader has gone back, or follows the game again.
   * @param {() => number} now
   * @param {() => void} [stepped]
   */
  constructor(now, stepped = () => {}) {
    this.now = now;
    this.stepped = stepped;
    this.root = at('large');
    this.table = new Table(at('diagram'));
    this.moves = at('moves');
    /** @type {Board | null} */
    this.board = null;
    /** @type {number | null} */
    this.ply = null; // the ply that is shown, or null if the game is followed
    this.turned = false;
    /** @type {Made[]} */
    this.made = []; // the listed moves, with their elements
    /** @type {HTMLElement[]} */
    this.clocks = [];
    at('first').addEventListener('click', () => this.go(0));
    at('previous').addEventListener('click', () => this.step(-1));
    at('next').addEventListener('click', () => this.step(1));
    at('last').addEventListener('click', () => this.go(Infinity));
    at('live').addEventListener('click', () => this.go(Infinity));
    at('turn').addEventListener('click', () => this.turn());
    this.moves.addEventListener('click', (event) => {
      const button = /** @type {Element} */ (event.target).closest('button');
      if (button) this.go(Number(button.dataset.ply));
    });
    new ResizeObserver(() => this.scroll()).observe(this.moves); // in a list of another size other moves are in sight
    /** @type {{ [key: string]: () => void }} */
    this.keys = {
      ArrowLeft: () => this.step(-1),
      ArrowRight: () => this.step(1),
      ArrowUp: () => this.step(-1),
      ArrowDown: () => this.step(1),
      Home: () => this.go(0),
      End: () => this.go(Infinity),
      l: () => this.go(Infinity),
      t: () => this.turn(),
    };
  }

  /**
   * Shows this board from now on, at its last move.
   * @type {(board: Board) => void}
   */
  open(board) {
    this.ply = null;
    this.root.hidden = false;
    this.show(board);
  }

  close() {
    this.board = null;
    this.root.hidden = true;
  }

  /**
   * Does what the key means here. Returns whether it means something.
   * @type {(key: string) => boolean}
   */
  press(key) {
    const call = this.keys[key.length === 1 ? key.toLowerCase() : key];
    if (call) call();
    return Boolean(call);
  }

  /** @type {(by: number) => void} */
  step(by) {
    this.go((this.ply === null ? this.opened.moves.length : this.ply) + by);
  }

  /**
   * Shows the position after this ply; the last one is followed.
   * @type {(ply: number) => void}
   */
  go(ply) {
    const count = this.opened.moves.length;
    this.ply = ply >= count ? null : Math.max(0, ply);
    this.show(this.opened);
    this.stepped();
  }

  /** The board that is open. */
  get opened() {
    return /** @type {Board} */ (this.board);
  }

  /** Whether it shows the game as it was, and not as it is. */
  get looksBack() {
    return this.board !== null && this.ply !== null;
  }

  turn() {
    this.turned = !this.turned;
    this.table.turn(this.turned);
    this.show(this.opened);
  }

  /** @param {Board} board */
  show(board) {
    this.board = board;
    const count = board.moves.length;
    if (this.ply !== null && this.ply >= count) this.ply = null;
    const live = this.ply === null;
    const ply = this.ply === null ? count : this.ply;
    const position = positionOf(board, ply, live);
    say(at('title'), message('label.board', { board: board.number }));
    const result = outcomeOf(board);
    if (result) this.root.dataset.result = result; // for its score sheet
    else delete this.root.dataset.result;
    if (at('sheet')) say(at('sheet'), sheetOf(board));
    this.showSeats(position.fen, live);
    const last = ply > 0 ? withNumber(board.positions[0], ply - 1, board.moves[ply - 1].san) : message('ply.the_start');
    this.table.show(position, message(live ? 'show.now' : 'show.after', { board: board.number, ply: last }));
    this.showPlace(last, live, count - ply);
    this.listMoves();
    this.markMove(ply);
    /** @type {HTMLAnchorElement} */ (at('own')).href = board.pgn;
    at('live').setAttribute('aria-pressed', String(live));
    at('turn').setAttribute('aria-pressed', String(this.turned));
  }

  /** @type {(fen: string, live: boolean) => void} */
  showSeats(fen, live) {
    const board = this.opened;
    const mover = !outcomeOf(board) && live ? toMove(fen) : '';
    this.clocks = [];
    for (const [index, side] of ['w', 'b'].entries()) {
      const name = index === 0 ? message('side.white') : message('side.black');
      const place = at((side === 'w') === this.turned ? 'upper' : 'lower');
      const player = element('span', `player ${side}`);
      const who = element('span');
      showPlayer(who, board, index);
      player.append(element('span', 'unseen', `${name}: `), who);
      this.clocks[index] = element('span', 'clock');
      const below = element('span', 'below');
      below.append(element('bdi', 'about', whereFrom(board, index)), this.takenBy(side, fen));
      place.replaceChildren(player, this.clocks[index], below);
      place.classList.toggle('moves', mover === side);
    }
    this.showClocks();
  }

  /**
   * The pieces that a side has taken, and by how much it is ahead.
   * @type {(side: string, fen: string) => HTMLElement}
   */
  takenBy(side, fen) {
    const other = side === 'w' ? 'b' : 'w';
    const taken = fen ? takenOf(this.opened.positions[0] || fen, fen, other) : '';
    const points = fen ? aheadOf(fen) * (side === 'w' ? 1 : -1) : 0;
    const root = element('span', 'taken');
    const pieces = linked('comma', [...taken].map((piece) => NAMES[piece]));
    root.append(element('span', 'unseen', taken ? linked('comma', ['', message('show.has_taken', { pieces })]) : ''));
    for (const piece of taken) root.append(element('i', `piece ${other}${piece}`));
    if (points > 0) root.append(element('span', 'points', `+${points}`));
    return root;
  }

  /** Clocks run while the game is followed. */
  showClocks() {
    const now = this.now();
    this.clocks.forEach((clock, index) => {
      say(clock, this.ply === null ? clockAt(this.opened, index, now) : this.clockOf(index));
    });
  }

  /**
   * The clock of a player after the ply that is shown: 0 is White's, 1 is Black's.
   * @type {(index: number) => string}
   */
  clockOf(index) {
    const { moves, positions } = this.opened;
    for (let ply = Number(this.ply) - 1; ply >= 0; ply -= 1) {
      const { side } = numbered(positions[0], ply);
      if ((side === 'w') === (index === 0)) return moves[ply].clock;
    }
    return '';
  }

  /** @type {(last: Words, live: boolean, behind: number) => void} */
  showPlace(last, live, behind) {
    const result = live ? outcomeOf(this.opened) : '';
    const where = linked('space', [last, ...(live ? [] : [plural('show.moves_back', behind)])]);
    say(at('at'), [where, result].filter((part) => part).join('   '));
  }

  /** Lists the moves. Those that are the same as before stay. */
  listMoves() {
    const { moves, number, positions } = this.opened;
    const start = positions[0] || '';
    let same = 0;
    /** @type {(made: Move, move: Move) => boolean} */
    const is = (made, move) => made.san === move.san && made.clock === move.clock && made.kind === move.kind;
    while (same < this.made.length && same < moves.length && is(this.made[same].move, moves[same])) same += 1;
    if (this.start !== start || this.listed !== number) same = 0;
    /** @type {string | undefined} */
    this.start = start;
    this.listed = number;
    for (const { place } of this.made.splice(same)) {
      const row = /** @type {HTMLLIElement} */ (place.parentNode);
      place.remove();
      if (!row.querySelector('button')) row.remove();
    }
    for (let ply = same; ply < moves.length; ply += 1) this.made.push(this.listMove(ply, moves[ply], start));
  }

  /** @type {(ply: number, move: Move, start: string) => Made} */
  listMove(ply, move, start) {
    const { number, side } = numbered(start, ply);
    let row = /** @type {HTMLLIElement | null} */ (this.moves.lastElementChild);
    if (side === 'w' || !row || ply === 0) {
      row = this.moves.appendChild(element('li'));
      row.value = number;
      const label = row.appendChild(element('span', 'number', `${number}.`));
      label.setAttribute('aria-hidden', 'true');
      if (side === 'b') row.appendChild(element('span', 'gap', '..'));
    }
    const place = row.appendChild(element('button'));
    place.type = 'button';
    place.tabIndex = -1;
    place.dataset.ply = String(ply + 1);
    place.append(element('span', 'san', move.san), element('span', 'time', move.clock));
    const words = [spokenPly(start, ply, move.san), move.clock];
    this.mark(move, place, words);
    place.setAttribute('aria-label', words.filter((word) => word).join(', '));
    return { move, place };
  }

  /**
   * What else is said about a move in the list.
   * @type {(move: Move, place: HTMLElement, words: Words[]) => void}
   */
  mark(move, place, words) {}

  /** @type {(ply: number) => void} */
  markMove(ply) {
    this.made.forEach(({ place }, index) => {
      const here = index === ply - 1;
      if ((place.getAttribute('aria-current') === 'true') !== here) {
        if (here) place.setAttribute('aria-current', 'true');
        else place.removeAttribute('aria-current');
        place.tabIndex = here ? 0 : -1;
      }
    });
    this.scroll();
  }

  /** Scrolls to the move that is shown. */
  scroll() {
    const list = this.moves;
    const ply = this.ply === null ? this.made.length : this.ply;
    if (ply === 0) list.scrollTop = 0;
    else if (this.made[ply - 1]) {
      const { place } = this.made[ply - 1];
      const top = place.offsetTop; // in the list
      if (top < list.scrollTop) list.scrollTop = top;
      const bottom = top + place.offsetHeight - list.clientHeight;
      if (bottom > list.scrollTop) list.scrollTop = bottom;
    }
  }
}
