// The arbiter's page: all boards with their states, and those to which somebody must go.

import { Boards, at } from './boards.js';
import { element, say } from './diagram.js';
import { Large } from './large.js';
import { message, plural } from './message.js';
import { Tile } from './tile.js';

/**
 * @typedef {import('./tile.js').Board} Board
 * @typedef {import('./message.js').Words} Words
 */

/** @type {{ [how: string]: Words }} */
const LINES = {
  connecting: message('line.connecting'),
  live: message('line.live'),
  back: message('line.back'),
  silent: message('line.silent_recorder'),
  lost: message('line.lost_recorder'),
  hidden: message('line.hidden'),
};

class Arbiter extends Boards {
  /** @type {(number: number, now: () => number) => Tile} */
  cardOf(number, now) {
    return new Tile(number, now);
  }

  /** @type {(now: () => number, stepped: () => void) => Large} */
  largeOf(now, stepped) {
    return new Large(now, stepped);
  }

  /** @type {(how: string) => Words} */
  line(how) {
    return LINES[how];
  }

  titled() {
    say(at('notice'), this.stream.said.notice || '');
    at('notice').hidden = !this.stream.said.notice;
  }

  /** @type {(board: import('./card.js').Board, before: import('./card.js').Board) => Words[]} */
  troubles(board, before) {
    const [{ alarm, state }, was] = /** @type {Board[]} */ ([board, before]);
    return alarm && (!was.alarm || state !== was.state) ? [state] : [];
  }

  mark() {
    const alarms = /** @type {Board[]} */ (this.stream.list()).filter((board) => board.alarm).map((board) => board.number);
    this.showAlarms(alarms);
    return alarms.length > 0 ? '(!) ' : '';
  }

  /**
   * The boards to which somebody must go, each as a link.
   * @type {(numbers: number[]) => void}
   */
  showAlarms(numbers) {
    const place = at('alarms');
    if (place.dataset.numbers === numbers.join()) return;
    place.dataset.numbers = numbers.join();
    place.hidden = numbers.length === 0;
    place.replaceChildren(String(plural('label.look_at', numbers.length)));
    for (const number of numbers) {
      const link = element('a', '', String(number));
      link.href = `#${number}`;
      place.append(' ', link);
    }
  }

  tick() {
    super.tick();
    for (const board of /** @type {Board[]} */ (this.stream.list())) {
      const card = /** @type {Tile | undefined} */ (this.cards.get(board.number));
      if (card) card.showState(board);
    }
    if (this.open !== null && this.large.board) /** @type {Large} */ (this.large).showState();
  }
}

new Arbiter();
