// All boards in a grid of cards, and one of them large if it is opened.

import { printedResult, spokenPly } from '../../live/show/page/chess.js';
import { element, say } from '../../live/show/page/diagram.js';
import { fit, placeAfter } from '../../live/show/page/grid.js';
import { Large } from '../../live/show/page/large.js';
import { linked, message, plural } from '../../live/show/page/message.js';
import { Tile } from '../../live/show/page/tile.js';
import { all, announce, at } from './messages.js';

const SURELY = 0.1; // seconds until news are drawn at the latest
const MOST_LINKS = 12; // boards that the line of alarms names
const SOON = 0.25; // the same of all else, which is drawn together

export class Cards {
  constructor() {
    // What main.js sets.
    /** @type {Hall} */
    this.hall;
    /** @type {Panel} */
    this.panel;
    this.tiles = /** @type {Map<number, Tile>} */ (new Map());
    this.shown = /** @type {Map<number, { view: View, text: string }>} */ (new Map()); // the last view of each board, and its text
    this.open = /** @type {number | null} */ (null); // the number of the board that is large
    this.columns = 1;
    this.scrolled = 0;
    this.isAsked = false;
    this.news = /** @type {Set<number>} */ (new Set()); // the boards that the next frame draws
    this.areAll = false; // whether the next frame draws all; `isLater`: whether all are drawn soon
    this.isLater = false;
    this.large = new Large(() => this.hall.loop.now());
    window.addEventListener('hashchange', () => {
      this.isAsked = true;
      this.route();
    });
    window.addEventListener('resize', () => this.size());
    const above = new ResizeObserver(() => this.size());
    [...all('header'), at('notices')].forEach((one) => above.observe(one));
    document.addEventListener('keydown', (event) => this.press(event));
    window.setInterval(() => this.showTimes(), 1000);
  }

  /** What is shown may have changed, of a board if it has a number. News are drawn with the next frame, those of a board on its card alone;
   * all else soon.
   * @type {(hall: Hall, isNews?: boolean, number?: number | null) => void} */
  show(hall, isNews = true, number = null) {
    this.hall = hall;
    if (!isNews || number !== null) this.drawSoon();
    if (!isNews) return;
    const isAsked = this.isNext;
    if (number === null) this.areAll = true;
    else this.news.add(number);
    if (isAsked) return;
    const draw = () => this.drawNext();
    requestAnimationFrame(draw);
    hall.loop.after(SURELY, draw); // a browser draws no frame of a page that nobody sees
  }

  /** Whether the next frame draws something. */
  get isNext() {
    return this.areAll || this.news.size > 0;
  }

  drawSoon() {
    if (this.isLater) return;
    this.isLater = true;
    this.hall.loop.after(SOON, () => {
      this.isLater = false;
      this.draw();
    });
  }

  drawNext() {
    const { areAll } = this;
    const news = [...this.news];
    this.areAll = false;
    this.news.clear();
    if (areAll) {
      this.draw();
      return;
    }
    news.filter((number) => this.tiles.has(number)).forEach((number) => this.drawOne(this.hall.view(number)));
    if (this.open !== null && news.includes(this.open)) this.panel.show(this.hall.seats.get(this.open));
  }

  draw() {
    const before = this.tiles.size;
    const views = this.hall.views();
    const numbers = views.map(({ number }) => number);
    for (const [number, tile] of this.tiles) {
      if (!numbers.includes(number)) {
        tile.root.remove();
        this.tiles.delete(number);
        this.shown.delete(number);
      }
    }
    views.forEach((view, index) => this.place(view.number, index));
    views.forEach((view) => this.drawOne(view));
    say(at('event'), this.hall.event || message('label.title'));
    say(at('add'), this.hall.devices.asking > 0 ? message('label.asking') : message('label.add'));
    at('welcome').hidden = views.length > 0;
    at('new-round').disabled = this.hall.recorded().length === 0;
    this.showLine();
    this.showAlarms(views);
    this.route();
    if (before !== views.length) this.size();
    if (this.open !== null) this.panel.show(this.hall.seats.get(this.open));
  }

  /** @type {(number: number, index: number) => void} the card of a board, which may be new, has this place */
  place(number, index) {
    const tile = this.tiles.get(number) || new Tile(number, () => this.hall.loop.now());
    this.tiles.set(number, tile);
    const { root } = tile;
    const place = at('boards').children[index] || null;
    if (place !== root) at('boards').insertBefore(root, place);
  }

  /** @type {(view: View | null) => void} */
  drawOne(view) {
    const tile = view && this.tiles.get(view.number);
    if (!tile) return; // it is just being removed
    const text = JSON.stringify(view);
    const before = this.shown.get(view.number);
    if (before && before.text === text) return;
    this.shown.set(view.number, { view, text });
    tile.show(view);
    if (this.open === view.number) this.large.show(view);
    this.announce(view, before ? before.view : { ...view, alarm: false });
  }

  /** The page's state, in a line. */
  showLine() {
    const { words, isAlarm, isLive } = this.hall.standing();
    say(at('line'), words);
    document.body.classList.toggle('stale', isAlarm);
    document.body.classList.toggle('live', isLive);
  }

  /** @type {(views: View[]) => void} the boards to which somebody must go, each as a link */
  showAlarms(views) {
    const numbers = views.filter(({ alarm }) => alarm).map(({ number }) => number);
    const place = at('alarms');
    const title = `${numbers.length > 0 ? '(!) ' : ''}${this.hall.event || message('label.title')}`;
    if (document.title !== title) document.title = title;
    if (place.dataset.numbers === numbers.join()) return;
    place.dataset.numbers = numbers.join();
    place.hidden = numbers.length === 0;
    place.replaceChildren(String(plural('label.look_at', numbers.length)));
    for (const number of numbers.slice(0, MOST_LINKS)) {
      const link = element('a', '', String(number));
      link.href = `#${number}`;
      place.append(' ', link);
    }
    if (numbers.length > MOST_LINKS) place.append(' ', String(message('ask.and_more', { count: numbers.length - MOST_LINKS })));
  }

  /** @type {(board: View, before: View) => void} all alarms, and the moves and the result of the large board */
  announce(board, before) {
    const name = message('label.board', { board: board.number });
    if (board.alarm && (!before.alarm || board.state !== before.state)) announce(linked('colon', [name, board.state]), true);
    if (this.open !== board.number) return;
    const words = [];
    const count = board.moves.length;
    const isNew = count > before.moves.length || (count > 0 && before.moves[count - 1].san !== board.moves[count - 1].san);
    if (count > 0 && isNew) {
      const { san, clock } = board.moves[count - 1];
      const withClock = clock ? [message('read.clock', { time: clock })] : [];
      words.push(linked('comma', [spokenPly(board.positions[0], count - 1, san), ...withClock]));
    }
    if (board.result !== before.result && board.result !== '*') words.push(message('read.result', { result: printedResult(board.result) }));
    if (words.length > 0) announce(linked('colon', [name, linked('stop', words)]));
  }

  // Which board is large.

  route() {
    const wanted = Number(window.location.hash.slice(1));
    const found = this.shown.get(wanted);
    if (found && this.open !== wanted) {
      if (this.open === null) this.scrolled = window.scrollY;
      this.open = wanted;
      at('boards').hidden = true;
      this.large.open(found.view);
      const seat = this.hall.seats.get(wanted);
      if (seat) this.panel.open(seat);
      document.body.classList.add('one');
      if (this.isAsked) {
        window.scrollTo(0, 0);
        this.large.root.focus({ preventScroll: true });
      }
    } else if (!found && (this.open !== null || at('boards').hidden)) {
      const before = this.open === null ? undefined : this.tiles.get(this.open);
      this.open = null;
      this.large.close();
      this.panel.close();
      document.body.classList.remove('one');
      at('boards').hidden = this.tiles.size === 0;
      this.size();
      if (this.isAsked && before) {
        before.link.focus({ preventScroll: true });
        window.scrollTo(0, this.scrolled);
      }
    }
  }

  size() {
    const list = at('boards');
    if (this.tiles.size > 0 && !list.hidden) this.columns = fit(list, [this.tiles.size], 0, true);
  }

  /** Shows how long states have lasted. */
  showTimes() {
    for (const [number, tile] of this.tiles) {
      const shown = this.shown.get(number);
      if (shown && shown.view.alarm) tile.showState(shown.view);
    }
    if (this.open !== null && this.large.board) this.large.showState();
  }

  // Keys.

  /** @type {(event: KeyboardEvent) => void} */
  press(event) {
    if (event.ctrlKey || event.altKey || event.metaKey || event.defaultPrevented) return;
    const target = /** @type {HTMLInputElement} */ (event.target);
    if (target.closest('dialog')) return;
    if (event.key === 'Escape' && target.matches('input:not([type="checkbox"])') && target.value) {
      this.panel.leave(target);
      event.preventDefault();
    } else if (event.key === 'Escape' && this.open !== null) {
      window.location.hash = '';
      event.preventDefault();
    } else if (!target.closest('input, summary, #tools, #notices, #log, #panel')) {
      const isDone = this.open === null ? this.pressOnGrid(event.key) : this.large.press(event.key);
      if (isDone) event.preventDefault();
    }
  }

  /** @type {(key: string) => boolean} */
  pressOnGrid(key) {
    const links = [...this.tiles.values()].map((tile) => tile.link);
    const next = placeAfter(key, links.indexOf(/** @type {HTMLAnchorElement} */ (document.activeElement)), [links.length], this.columns);
    if (next === undefined) return false;
    if (links[next]) links[next].focus();
    return true;
  }
}
