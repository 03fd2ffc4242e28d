// One board, large, as the arbiter sees it: its game, with its state.

import { lasting } from './chess.js';
import { say } from './diagram.js';
import { GameView } from './game.js';
import { message } from './message.js';

/**
 * @typedef {import('./card.js').Move} Move
 * @typedef {import('./message.js').Words} Words
 * @typedef {import('./tile.js').Board} Board
 */

/** @type {(name: string) => HTMLElement} */
const at = (name) => /** @type {HTMLElement} */ (document.getElementById(name));

export class Large extends GameView {
  /** @type {(board: Board) => void} */
  show(board) {
    super.show(board);
    this.showState();
  }

  showState() {
    const { state, since, alarm, mend } = /** @type {Board} */ (this.opened);
    const time = since === null || !state ? '' : `, ${lasting(this.now() - since)}`;
    say(at('state'), state + time);
    say(at('mend'), mend);
    at('mend').hidden = mend === '';
    at('state').classList.toggle('alarm', alarm);
    at('play').classList.toggle('alarm', alarm);
  }

  /** @type {(move: Move, place: HTMLElement, words: Words[]) => void} */
  mark(move, place, words) {
    if (move.kind !== 'correction') return;
    place.className = 'corrected';
    words.push(message('show.corrected'));
    place.title = String(message('show.was_corrected'));
  }
}
