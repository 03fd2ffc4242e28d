// All boards in a grid, and one of them large if the page's address names it: `#3`. Each page adds what only it
// shows.

import { Card } from './card.js';
import { outcomeOf, spokenPly } from './chess.js';
import { drawPieces, say } from './diagram.js';
import { GameView } from './game.js';
import { fit, placeAfter } from './grid.js';
import { linked, message } from './message.js';
import { Stream } from './stream.js';

/**
 * @typedef {import('./card.js').Board} Board
 * @typedef {import('./message.js').Words} Words
 * @typedef {import('./stream.js').How} How
 */

/**
 * The element with this identifier, which the page has.
 * @type {(name: string) => HTMLElement}
 */
export const at = (name) => /** @type {HTMLElement} */ (document.getElementById(name));
const UNNAMED = message('show.title');
const SECOND = 1000;

export class Boards {
  constructor() {
    /** @type {Map<number, Card>} */
    this.cards = new Map();
    /** @type {number | null} */
    this.focused = null; // the board whose card gets the focus when the large one is closed
    this.scrolled = 0;
    /** @type {number | null} */
    this.open = null; // the number of the board that is large
    this.asked = false;
    this.columns = 1;
    this.sizes = 0; // the frame in which the cards are sized anew
    /** @type {How} */
    this.how = 'connecting';
    drawPieces();
    this.large = this.largeOf(() => this.stream.now(), () => this.showLine());
    window.addEventListener('resize', () => this.size());
    window.addEventListener('hashchange', () => {
      this.asked = true;
      this.route();
    });
    document.addEventListener('keydown', (event) => this.press(event));
    window.setInterval(() => this.tick(), SECOND);
    this.stream = new Stream((number, before) => this.changed(number, before), (how) => this.connected(how));
  }

  // What each page says in its own way.

  /**
   * A board's card.
   * @type {(number: number, now: () => number) => Card}
   */
  cardOf(number, now) {
    return new Card(number, now);
  }

  /**
   * The large view of a board.
   * @type {(now: () => number, stepped: () => void) => GameView}
   */
  largeOf(now, stepped) {
    return new GameView(now, stepped);
  }

  /**
   * The page's state in words.
   * @type {(how: How | 'back') => Words}
   */
  line(how) {
    return how;
  }

  /** The round has changed. */
  titled() {}

  /**
   * What a screen reader reads out about a board, besides its moves and its result: a list of words.
   * @type {(board: Board, before: Board) => Words[]}
   */
  troubles(board, before) {
    return [];
  }

  /** What comes before the page's name. */
  mark() {
    return '';
  }

  /** Another view than the boards, if the address names one. Returns whether it is shown. */
  routeElsewhere() {
    return false;
  }

  /** A second has gone by. */
  tick() {
    for (const board of this.stream.list()) {
      const card = this.cards.get(board.number);
      if (card) card.showClocks(board);
    }
    if (this.open !== null && this.large.board) this.large.showClocks();
  }

  // What has changed.

  /** @type {(number?: number, before?: Board) => void} */
  changed(number, before) {
    if (number === undefined) {
      this.arrange();
      return;
    }
    const board = /** @type {Board} */ (this.stream.boards.get(number));
    if (this.cards.has(number) !== this.listed.includes(number)) this.arrange();
    const card = this.cards.get(number);
    if (card) card.show(board);
    if (!before || [[before.teams, board.teams], [before.federations, board.federations]].some(([was, is]) => String(was) !== String(is))) this.sizeSoon();
    if (this.open === number) this.large.show(board);
    if (before) this.announce(board, before);
    this.showTitle();
    this.showLine();
    this.route();
  }

  /** The numbers of the boards that are shown, in their order. */
  get listed() {
    return this.stream.numbers;
  }

  /** How many boards stand together, in each group of them. */
  get groups() {
    return [this.listed.length];
  }

  /**
   * What is in the grid: the boards' cards.
   * @type {HTMLElement[]}
   */
  get laid() {
    return this.cardsOf(this.listed).map((card) => card.root);
  }

  /**
   * The cards of boards that have one.
   * @type {(numbers: number[]) => Card[]}
   */
  cardsOf(numbers) {
    return numbers.flatMap((number) => this.cards.get(number) || []);
  }

  /** Gives each board its card, in the order in which they are shown. */
  arrange() {
    const { numbers } = this.stream;
    const { listed } = this;
    const focused = /** @type {HTMLElement | null} */ (document.activeElement);
    for (const [number, card] of this.cards) {
      if (!listed.includes(number)) {
        card.root.remove();
        this.cards.delete(number);
      }
    }
    for (const number of listed) {
      if (!this.cards.has(number)) this.cards.set(number, this.cardOf(number, () => this.stream.now()));
    }
    const { laid } = this;
    laid.forEach((root, index) => {
      const place = at('boards').children[index] || null;
      if (place !== root) at('boards').insertBefore(root, place);
    });
    while (at('boards').children.length > laid.length) at('boards').children[laid.length].remove();
    for (const number of listed) {
      const board = this.stream.boards.get(number);
      const card = this.cards.get(number);
      if (board && card) card.show(board);
    }
    if (focused && at('boards').contains(focused)) focused.focus({ preventScroll: true }); // a card that is moved loses it
    say(at('event'), this.name);
    at('none').hidden = numbers.length > 0;
    this.titled();
    this.showTitle();
    this.route();
    this.size();
  }

  /** Event and round. */
  get name() {
    const { event, said } = this.stream;
    return String(linked('comma', [event || UNNAMED, ...(said.round ? [message('round.number', { number: said.round })] : [])]));
  }

  /**
   * What a screen reader reads out: the moves of the large board, and the results of all.
   * @type {(board: Board, before: Board) => void}
   */
  announce(board, before) {
    /** @type {Words[]} */
    const words = [];
    const count = board.moves.length;
    const isNew = count > before.moves.length || (count > 0 && before.moves[count - 1].san !== board.moves[count - 1].san);
    if (this.open === board.number && count > 0 && isNew) {
      const { san, clock } = board.moves[count - 1];
      const withClock = clock ? [message('read.clock', { time: clock })] : [];
      words.push(linked('comma', [spokenPly(board.positions[0], count - 1, san), ...withClock]));
    }
    const outcome = outcomeOf(board);
    if (outcome && outcome !== outcomeOf(before)) words.push(message('read.result', { result: outcome }));
    words.push(...this.troubles(board, before));
    const name = message('label.board', { board: board.number });
    if (words.length > 0) say(at('said'), linked('colon', [name, linked('stop', words)]));
  }

  showTitle() {
    const title = linked('comma', [...(this.open === null ? [] : [message('label.board', { board: this.open })]), this.name]);
    const whole = `${this.mark()}${title}`;
    if (document.title !== whole) document.title = whole;
  }

  /** @type {(how: How) => void} */
  connected(how) {
    this.how = how;
    this.showLine();
  }

  /** The page's state: it isn't live for a reader who looks at an earlier position. */
  showLine() {
    const { how } = this;
    const looksBack = how === 'live' && this.open !== null && this.large.looksBack;
    document.body.classList.toggle('stale', ['silent', 'lost', 'stopped'].includes(how));
    document.body.classList.toggle('live', how === 'live' && !looksBack);
    say(at('line'), this.line(looksBack ? 'back' : how));
  }

  // Which board is large.

  route() {
    const { numbers, boards } = this.stream;
    const only = numbers.length === 1;
    const elsewhere = this.routeElsewhere();
    const wanted = only && !elsewhere ? numbers[0] : Number(window.location.hash.slice(1));
    const board = elsewhere ? undefined : boards.get(wanted);
    at('back').hidden = only;
    at('escape').hidden = only;
    if (board && this.open !== wanted) {
      this.show(board);
    } else if (!board && (this.open !== null || at('boards').hidden !== (elsewhere || numbers.length === 0))) {
      this.showAll(elsewhere);
    }
  }

  /**
   * Shows one board large.
   * @type {(board: Board) => void}
   */
  show(board) {
    if (this.open === null) this.scrolled = window.scrollY;
    this.open = board.number;
    at('boards').hidden = true;
    this.large.open(board);
    document.body.classList.add('one');
    if (this.asked) {
      window.scrollTo(0, 0);
      this.large.root.focus({ preventScroll: true });
    }
    this.showTitle();
    this.showLine();
  }

  /**
   * Shows the grid, or makes room for what is shown elsewhere.
   * @type {(elsewhere: boolean) => void}
   */
  showAll(elsewhere) {
    this.focused = this.open === null ? this.focused : this.open;
    this.open = null;
    this.large.close();
    document.body.classList.remove('one');
    at('boards').hidden = elsewhere || this.stream.numbers.length === 0;
    this.size();
    const card = this.focused === null ? undefined : this.cards.get(this.focused);
    if (this.asked && !elsewhere && card) {
      card.link.focus({ preventScroll: true });
      window.scrollTo(0, this.scrolled);
    }
    this.showTitle();
    this.showLine();
  }

  // Keys.

  /** @type {(event: KeyboardEvent) => void} */
  press(event) {
    if (event.ctrlKey || event.altKey || event.metaKey || event.defaultPrevented) return;
    const { numbers } = this.stream;
    if (event.key === 'Escape' && (at('boards').hidden && (this.open === null || numbers.length > 1))) {
      window.location.hash = '';
      event.preventDefault();
    } else if (this.open === null ? this.pressOnGrid(event.key) : this.large.press(event.key)) {
      event.preventDefault();
    }
  }

  /** @type {(key: string) => boolean} */
  pressOnGrid(key) {
    if (at('boards').hidden) return false;
    const links = this.cardsOf(this.listed).map((card) => card.link);
    const next = placeAfter(key, links.findIndex((link) => link === document.activeElement), this.groups, this.columns);
    if (next === undefined) return false;
    if (links[next]) links[next].focus();
    return true;
  }

  /** The pixels that are needed below the cards. */
  get below() {
    return 0;
  }

  /** Cards may have got more lines: they are sized anew, all of them at once. */
  sizeSoon() {
    window.cancelAnimationFrame(this.sizes);
    this.sizes = window.requestAnimationFrame(() => this.size());
  }

  size() {
    const list = at('boards');
    const { length } = this.listed;
    if (length > 0 && !list.hidden) this.columns = fit(list, this.groups, this.below);
  }
}
