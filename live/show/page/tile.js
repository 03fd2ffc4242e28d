// One board among others, as the arbiter sees it: its card, with its state.

import { lasting } from './chess.js';
import { Card } from './card.js';
import { element, say } from './diagram.js';

/**
 * What the arbiter sees of a board besides: its state, and since when it has been so.
 * @typedef {import('./card.js').Board & { state: string, since: number | null, alarm: boolean, mend: string }} Board
 */

export class Tile extends Card {
  /**
   * @param {number} number
   * @param {() => number} now
   */
  constructor(number, now) {
    super(number, now);
    this.state = this.head.appendChild(element('span', 'state'));
  }

  /** @type {(board: Board) => void} */
  show(board) {
    super.show(board);
    this.root.classList.toggle('alarm', board.alarm);
    this.showState(board);
  }

  /** @type {(board: Board) => void} */
  showState(board) {
    const time = board.alarm && board.since !== null ? `, ${lasting(this.now() - board.since)}` : '';
    say(this.state, board.state + time);
    this.state.title = [board.state, board.mend].filter((part) => part).join('. ');
  }
}
