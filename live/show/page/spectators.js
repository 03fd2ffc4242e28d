// The spectators' page: games, clocks that run, results, and the way from one board to the next.

import { Boards, at } from './boards.js';
import { Card } from './card.js';
import { outcomeOf, printedPoints } from './chess.js';
import { element, say } from './diagram.js';
import { message } from './message.js';
import { showPlayer, whereFrom } from './names.js';

/**
 * @typedef {import('./card.js').Board} Board
 * @typedef {import('./message.js').Words} Words
 * @typedef {import('./stream.js').Match} Match
 * @typedef {{ match?: Match, numbers: number[] }} Group boards that stand together, perhaps those of a match
 * @typedef {{ root: HTMLElement, white: HTMLElement, result: HTMLElement, black: HTMLElement }} Row
 * @typedef {{ pinned?: unknown, hides?: unknown }} Chosen
 */

const RESULTS = '#results';
const PINNED = '\u2605';
const UNPINNED = '\u2606';
/** @type {{ [how: string]: Words }} */
const LINES = {
  connecting: message('line.connecting'),
  live: message('line.live'),
  back: message('line.back'),
  silent: message('line.silent'),
  lost: message('line.lost'),
  hidden: message('line.hidden'),
  ended: message('line.ended'),
};

/**
 * The first element in another one, which has one.
 * @type {(where: Element) => HTMLElement}
 */
function firstIn(where) {
  return /** @type {HTMLElement} */ (where.firstElementChild);
}

/**
 * A time of day; of another day its date too.
 * @type {(seconds: number) => string}
 */
function timeOf(seconds) {
  const time = new Date(seconds * 1000);
  const isToday = time.toDateString() === new Date().toDateString();
  return isToday ? time.toLocaleTimeString([], { hour: '2-digit', minute: '2-digit' }) : time.toLocaleString([], { dateStyle: 'medium', timeStyle: 'short' });
}

/**
 * A match: a team, the score, the other team, and why there is no score, if there is none.
 * @type {(match: Match) => string[]}
 */
function partsOf({ teams, points, why }) {
  const score = points ? points.map(printedPoints).join('\u2013') : '\u2013';
  return [teams[0], score, teams[1], ...(why ? [String(message('join.capital', { text: message('site.no_score', { why }) }))] : [])];
}

/**
 * Shows a match and its score there.
 * @type {(where: HTMLElement, match: Match) => void}
 */
function showMatch(where, match) {
  const [one, score, other, why] = partsOf(match);
  if (where.textContent === partsOf(match).join(' ')) return;
  where.replaceChildren(element('bdi', '', one), ' ', element('b', 'score', score), ' ', element('bdi', '', other));
  if (why) where.append(' ', element('small', 'why', why));
}

/** What this browser remembers of a round; nothing where it may not. */
class Kept {
  /** @param {string} name */
  constructor(name) {
    this.name = name;
  }

  /** @type {() => Chosen} */
  read() {
    try {
      return JSON.parse(window.localStorage.getItem(this.name) || '{}') || {};
    } catch {
      return {};
    }
  }

  /** @type {(value: Chosen) => void} */
  write(value) {
    try {
      window.localStorage.setItem(this.name, JSON.stringify(value));
    } catch {
      // it holds until the page is left
    }
  }
}

/** A card with a button that puts it in front. */
class PinnedCard extends Card {
  /**
   * @param {number} number
   * @param {() => number} now
   * @param {(number: number) => void} pin
   */
  constructor(number, now, pin) {
    super(number, now);
    this.pin = this.root.appendChild(element('button', 'pin', UNPINNED));
    this.pin.type = 'button';
    this.pin.tabIndex = -1;
    this.pin.setAttribute('aria-label', String(message('show.in_front', { board: number })));
    this.pin.setAttribute('aria-keyshortcuts', 'f');
    this.pin.addEventListener('click', () => pin(number));
  }

  /** @type {(is: boolean) => void} */
  showPinned(is) {
    say(this.pin, is ? PINNED : UNPINNED);
    this.pin.setAttribute('aria-pressed', String(is));
  }
}

class Spectators extends Boards {
  /** @type {number[]} */
  pinned = []; // the numbers of the boards in front

  hides = false; // whether finished games are left out

  kept = new Kept(''); // what this browser remembers of the round

  constructor() {
    super();
    /** @type {Map<number, Row>} */
    this.rows = new Map(); // of the result list
    /** @type {Map<number, HTMLElement>} */
    this.headings = new Map(); // of the matches in it, by their first boards
    /** @type {Map<number, HTMLElement>} */
    this.above = new Map(); // and in the grid
    at('hide').addEventListener('click', () => this.hide(!this.hides));
    at('show-all').addEventListener('click', () => this.showFinished());
    at('front').addEventListener('click', () => this.pin(Number(this.open)));
    if (window.top !== window.self || new URLSearchParams(window.location.search).has('compact')) document.body.classList.add('compact');
    /** @type {HTMLAnchorElement} */ (at('whole')).href = window.location.pathname; // in a window of its own
    this.large.keys.n = () => this.go(1);
    this.large.keys.p = () => this.go(-1);
    this.large.keys.f = () => this.pin(Number(this.open));
  }

  /** @type {(number: number, now: () => number) => Card} */
  cardOf(number, now) {
    const card = new PinnedCard(number, now, (which) => this.pin(which));
    card.showPinned(this.pinned.includes(number));
    return card;
  }

  // Boards in front, and finished games.

  get listed() {
    return this.together.flatMap(({ numbers }) => numbers);
  }

  get groups() {
    return this.together.map(({ numbers }) => numbers.length);
  }

  /**
   * The boards that stand together, in their order: those in front, then those of each match, then the others.
   * @type {Group[]}
   */
  get together() {
    const { numbers, boards } = this.stream;
    /** @type {(number: number) => boolean} */
    const goes = (number) => {
      const board = boards.get(number);
      return !board || !outcomeOf(board);
    };
    const others = numbers.filter((number) => !this.pinned.includes(number) && (!this.hides || goes(number)));
    const ofMatches = this.matches.map((match) => ({ match, numbers: others.filter((number) => match.boards.includes(number)) }));
    /** @type {Group[]} */
    const parts = [
      { numbers: numbers.filter((number) => this.pinned.includes(number)) },
      ...ofMatches,
      { numbers: others.filter((number) => !this.matchOf(number)) },
    ];
    const shown = parts.filter((part) => part.numbers.length > 0);
    return this.matches.length > 0 || shown.length === 0 ? shown : [{ numbers: shown.flatMap((part) => part.numbers) }];
  }

  /**
   * The cards, those of a match below its teams and its score.
   * @type {HTMLElement[]}
   */
  get laid() {
    return this.together.flatMap(({ match, numbers }) => {
      const roots = this.cardsOf(numbers).map((card) => card.root);
      return match ? [this.aboveBoards(match), ...roots] : roots;
    });
  }

  /** @type {(match: Match) => HTMLElement} */
  aboveBoards(match) {
    const [first] = match.boards;
    const root = this.above.get(first) || element('li', 'above');
    if (!this.above.has(first)) {
      root.append(element('h2'));
      this.above.set(first, root);
    }
    showMatch(firstIn(root), match);
    return root;
  }

  /** What was chosen for this round before. */
  recall() {
    if (this.kept.name === this.name) return;
    this.kept = new Kept(this.name);
    const { pinned, hides } = this.kept.read();
    this.pinned = Array.isArray(pinned) ? pinned : [];
    this.hides = hides === true;
    at('hide').setAttribute('aria-pressed', String(this.hides));
  }

  /** @type {(number: number) => void} */
  pin(number) {
    this.pinned = this.pinned.includes(number) ? this.pinned.filter((one) => one !== number) : [...this.pinned, number];
    const isPinned = this.pinned.includes(number);
    const card = /** @type {PinnedCard | undefined} */ (this.cards.get(number));
    if (card) card.showPinned(isPinned);
    this.showFront();
    say(at('said'), message(isPinned ? 'show.is_in_front' : 'show.no_longer_in_front', { board: number }));
    this.chosen();
  }

  /** Whether the large board is in front. */
  showFront() {
    const isPinned = this.open !== null && this.pinned.includes(this.open);
    say(at('front'), isPinned ? PINNED : UNPINNED);
    at('front').setAttribute('aria-pressed', String(isPinned));
    at('front').hidden = this.stream.numbers.length === 1;
  }

  /** @type {(key: string) => boolean} */
  pressOnGrid(key) {
    const found = [...this.cards].find(([, card]) => card.root.contains(document.activeElement));
    if (key.toLowerCase() !== 'f' || !found || at('boards').hidden) return super.pressOnGrid(key);
    const [number, { link }] = found;
    this.pin(number);
    if (link.isConnected) {
      link.focus({ preventScroll: true });
      link.scrollIntoView({ block: 'nearest' });
    }
    return true;
  }

  /** @type {(hides: boolean) => void} */
  hide(hides) {
    this.hides = hides;
    at('hide').setAttribute('aria-pressed', String(hides));
    this.chosen();
  }

  showFinished() {
    this.hide(false);
    for (const { link } of this.cardsOf(this.listed.slice(0, 1))) link.focus();
  }

  chosen() {
    this.kept.write({ pinned: this.pinned, hides: this.hides });
    this.arrange();
  }

  arrange() {
    this.recall();
    super.arrange();
  }

  /** @type {(how: string) => Words} */
  line(how) {
    const late = this.stream && this.stream.said.late;
    const since = this.stream && this.stream.stands;
    if (how === 'stopped') return since ? message('line.nothing_since', { time: timeOf(since) }) : LINES.silent;
    return how === 'live' && late ? message('line.late', { delay: late }) : LINES[how];
  }

  titled() {
    this.showLine();
    this.listMatches();
    this.listResults();
    this.showAround(!at('boards').hidden);
  }

  /**
   * Shows what is above the boards and below them, or hides it.
   * @type {(isGrid: boolean) => void}
   */
  showAround(isGrid) {
    const isEmpty = this.listed.length === 0;
    const isAbove = this.matches.length === 1 && this.together.some(({ match }) => match); // its score is above its boards
    at('matches').hidden = !isGrid || this.matches.length === 0 || isAbove;
    at('all-over').hidden = !isGrid || !isEmpty;
    at('grid-keys').hidden = !isGrid || isEmpty;
  }

  get below() {
    const gap = Number.parseFloat(at('boards').style.getPropertyValue('--gap')) || 0;
    const above = [...this.above.values()].filter((root) => root.isConnected);
    return above.reduce((sum, root) => sum + root.offsetHeight + gap, at('grid-keys').offsetHeight);
  }

  // Matches of two teams.

  /** @type {Match[]} */
  get matches() {
    return this.stream.said.matches || [];
  }

  listMatches() {
    const list = at('matches');
    while (list.children.length > this.matches.length) list.children[this.matches.length].remove();
    this.matches.forEach((match, index) => {
      if (index === list.children.length) list.append(this.matchPlace(index));
      showMatch(firstIn(list.children[index]), match);
    });
    this.showOfMatch();
  }

  /** @type {(number: number) => Match | undefined} */
  matchOf(number) {
    return this.matches.find(({ boards }) => boards.includes(number));
  }

  /** The match of the large board. */
  showOfMatch() {
    const match = this.open === null ? undefined : this.matchOf(this.open);
    at('of-match').hidden = !match;
    if (match) showMatch(at('of-match'), match);
  }

  /**
   * With a result a screen reader also reads out the score of its match.
   * @type {(board: Board, before: Board) => Words[]}
   */
  troubles(board, before) {
    const match = this.matchOf(board.number);
    const isNew = outcomeOf(board) !== '' && outcomeOf(board) !== outcomeOf(before);
    return match && isNew ? [partsOf(match).join(' ')] : [];
  }

  /**
   * A match above the boards: a button that leads to its first one.
   * @type {(index: number) => HTMLElement}
   */
  matchPlace(index) {
    const place = element('li', 'match');
    const button = place.appendChild(element('button'));
    button.type = 'button';
    button.title = String(message('show.to_its_boards'));
    button.addEventListener('click', () => this.goTo(this.matches[index].boards));
    return place;
  }

  /**
   * To the first of these boards in the grid; where all are hidden, the first one is shown large.
   * @type {(boards: number[]) => void}
   */
  goTo(boards) {
    const first = this.listed.find((number) => boards.includes(number));
    if (first === undefined) {
      window.location.hash = `#${boards[0]}`;
    } else {
      for (const { link, root } of this.cardsOf([first])) {
        link.focus({ preventScroll: true });
        root.scrollIntoView({ block: 'start' });
      }
    }
  }

  /** @type {(board: Board) => void} */
  show(board) {
    this.showAround(false);
    super.show(board);
    this.showFront();
    this.showOfMatch();
  }

  /** @type {(elsewhere: boolean) => void} */
  showAll(elsewhere) {
    this.showAround(!elsewhere && this.stream.numbers.length > 0);
    super.showAll(elsewhere);
  }

  /** @type {(number?: number, before?: Board) => void} */
  changed(number, before) {
    super.changed(number, before);
    if (number !== undefined) this.listResults();
  }

  route() {
    super.route();
    for (const { name, by } of [{ name: 'board-before', by: -1 }, { name: 'board-after', by: 1 }]) {
      const number = this.beside(by);
      at(name).hidden = number === undefined;
      if (number !== undefined) {
        /** @type {HTMLAnchorElement} */ (at(name)).href = `#${number}`;
        const board = message('label.board', { board: number });
        say(at(name), by < 0 ? `\u2190 ${board}` : `${board} \u2192`);
      }
    }
  }

  /**
   * The number of the board before the large one, or after it.
   * @type {(by: number) => number | undefined}
   */
  beside(by) {
    const { numbers } = this.stream;
    const here = numbers.findIndex((number) => number === this.open);
    return here < 0 ? undefined : numbers[here + by];
  }

  /** @type {(by: number) => void} */
  go(by) {
    const number = this.beside(by);
    if (number !== undefined) window.location.hash = `#${number}`;
  }

  // The result list.

  routeElsewhere() {
    const shows = window.location.hash === RESULTS;
    const comes = shows && at('results').hidden;
    at('results').hidden = !shows;
    if (comes && this.asked) at('results').focus({ preventScroll: true });
    at('to-results').setAttribute('aria-current', shows ? 'page' : 'false');
    return shows;
  }

  listResults() {
    const body = at('result-rows');
    const kept = new Map();
    for (const board of this.stream.list()) {
      const row = this.rows.get(board.number) || this.row(board.number);
      kept.set(board.number, row);
      [row.white, row.black].forEach((place, index) => {
        showPlayer(firstIn(place), board, index);
        say(/** @type {Node} */ (place.lastChild), whereFrom(board, index));
      });
      const outcome = outcomeOf(board);
      say(row.result, outcome || (board.moves.length > 0 ? message('show.playing') : ''));
      row.root.classList.toggle('goes', outcome === '');
    }
    this.rows = kept;
    const inMatches = this.matches.flatMap((match) => [this.heading(match), ...this.rootsOf(match.boards)]);
    const roots = [...new Set([...inMatches, ...this.rootsOf(this.stream.numbers)])];
    roots.forEach((root, index) => {
      if (body.children[index] !== root) body.insertBefore(root, body.children[index] || null);
    });
    while (body.children.length > roots.length) body.children[roots.length].remove();
  }

  /** @type {(numbers: number[]) => HTMLElement[]} */
  rootsOf(numbers) {
    return numbers.flatMap((number) => this.rows.get(number) || []).map((row) => row.root);
  }

  /**
   * The row above the boards of a match.
   * @type {(match: Match) => HTMLElement}
   */
  heading(match) {
    const [first] = match.boards;
    const root = this.headings.get(first) || element('tr', 'match');
    if (!this.headings.has(first)) {
      root.appendChild(element('th')).colSpan = 4;
      this.headings.set(first, root);
    }
    showMatch(firstIn(root), match);
    return root;
  }

  /** @type {(number: number) => Row} */
  row(number) {
    const root = element('tr');
    const link = element('a', '', String(number));
    link.href = `#${number}`;
    link.setAttribute('aria-label', String(message('label.board', { board: number })));
    const head = root.appendChild(element('th'));
    head.scope = 'row';
    head.append(link);
    const [white, result, black] = ['name', 'result', 'name'].map((name) => root.appendChild(element('td', name)));
    for (const place of [white, black]) place.append(element('bdi'), ' ', element('small'));
    return { root, white, result, black };
  }
}

new Spectators();
