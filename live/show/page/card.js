// One board among others: players, clocks, a diagram, the last move. Names and moves are set as text, never as markup.

import { aheadOf, outcomeOf, toMove, withNumber } from './chess.js';
import { clockAt } from './clock.js';
import { Picture, element, positionOf, say } from './diagram.js';
import { linked, message } from './message.js';
import { aboutOf, nameOf, teamOf } from './names.js';

/** @typedef {import('./message.js').Words} Words */

/**
 * A board as a page is told of it; the pairs are White's and Black's.
 * @typedef {object} Board
 * @property {number} number
 * @property {string} white
 * @property {string} black
 * @property {string[]} [titles]
 * @property {string[]} [ratings]
 * @property {string[]} [federations]
 * @property {string[]} [teams]
 * @property {string} [date]
 * @property {string} [place]
 * @property {string} [control]
 * @property {string} result
 * @property {string} forfeit
 * @property {string[]} clocks
 * @property {string} runs whose clock runs: `w`, `b` or empty
 * @property {number | null} at when the clocks showed that
 * @property {Move[]} moves
 * @property {string[]} positions FENs, that of the start first
 * @property {string} pgn
 * @property {string[]} differing squares
 * @typedef {{ san: string, clock: string, kind: string }} Move
 */

/** @typedef {{ root: HTMLElement, player: HTMLElement, about: HTMLElement, clock: HTMLElement, team: HTMLElement }} Seat */

export class Card {
  /**
   * @param {number} number
   * @param {() => number} now
   */
  constructor(number, now) {
    this.now = now; // in seconds since 1970
    this.root = element('li');
    this.link = this.root.appendChild(element('a', 'tile'));
    this.link.href = `#${number}`;
    this.head = this.link.appendChild(element('span', 'head'));
    this.head.append(element('span', 'unseen', `${message('label.board_column')} `), element('span', 'number', String(number)));
    this.black = this.seat('b', message('side.black'));
    this.picture = new Picture();
    this.link.appendChild(this.picture.root);
    this.white = this.seat('w', message('side.white'));
    const foot = this.link.appendChild(element('span', 'foot'));
    this.last = foot.appendChild(element('span', 'last'));
    this.ahead = foot.appendChild(element('span', 'ahead'));
    this.result = foot.appendChild(element('span', 'result'));
  }

  /** @type {(side: string, name: Words) => Seat} */
  seat(side, name) {
    const root = this.link.appendChild(element('span', 'seat'));
    root.appendChild(element('span', 'unseen', `, ${name}: `));
    const player = root.appendChild(element('bdi', `player ${side}`));
    const about = root.appendChild(element('bdi', 'about'));
    const clock = root.appendChild(element('span', 'clock'));
    const team = root.appendChild(element('bdi', 'team'));
    return { root, player, about, clock, team };
  }

  /** @param {Board} board */
  show(board) {
    const ply = board.moves.length;
    const position = positionOf(board, ply, true);
    const outcome = outcomeOf(board);
    const mover = outcome ? '' : toMove(position.fen);
    for (const [seat, side, index] of /** @type {[Seat, string, number][]} */ ([[this.white, 'w', 0], [this.black, 'b', 1]])) {
      say(seat.player, nameOf(board, index));
      say(seat.about, aboutOf(board, index));
      say(seat.team, teamOf(board, index));
      seat.player.title = [nameOf, aboutOf, teamOf].map((of) => of(board, index)).filter((part) => part).join(', ');
      seat.root.classList.toggle('moves', mover === side);
    }
    this.showClocks(board);
    this.picture.show(position);
    say(this.last, ply > 0 ? withNumber(board.positions[0], ply - 1, board.moves[ply - 1].san) : '');
    const ahead = aheadOf(position.fen);
    const side = ahead > 0 ? message('side.white') : message('side.black');
    say(this.ahead, ahead === 0 ? '' : linked('space', [side, `+${Math.abs(ahead)}`]));
    say(this.result, outcome);
    this.root.classList.toggle('over', outcome !== '');
  }

  /** @type {(board: Board) => void} */
  showClocks(board) {
    const now = this.now();
    say(this.white.clock, clockAt(board, 0, now));
    say(this.black.clock, clockAt(board, 1, now));
  }
}
