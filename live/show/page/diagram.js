// Diagrams: a small one that is only a picture, and a large one that is a table for those who can't see it.

import { FILES, movedSquares, pieceName, squareName, squaresOf } from './chess.js';
import { linked, message } from './message.js';

/**
 * @typedef {import('./card.js').Board} Board
 * @typedef {import('./message.js').Words} Words
 */

/** @typedef {{ fen: string, squares: string[], from?: number, to?: number, differing: Set<string> }} Position */

/**
 * An element with a class and a text.
 * @type {<Kind extends keyof HTMLElementTagNameMap>(kind: Kind, name?: string, text?: Words) => HTMLElementTagNameMap[Kind]}
 */
export function element(kind, name = '', text = '') {
  const made = document.createElement(kind);
  if (name) made.className = name;
  if (text) made.textContent = String(text);
  return made;
}

/**
 * Sets a text if it has changed, so that nothing is read out twice.
 * @type {(where: Node, text: Words) => void}
 */
export function say(where, text) {
  if (where.textContent !== String(text)) where.textContent = String(text);
}

/** From now on the pieces are drawn as in the page's first answer: no other answer is needed for them. */
export function drawPieces() {
  const { content } = /** @type {HTMLTemplateElement} */ (document.getElementById('pieces'));
  const picture = new XMLSerializer().serializeToString(/** @type {SVGElement} */ (content.querySelector('svg')));
  document.documentElement.style.setProperty('--pieces', `url("data:image/svg+xml,${encodeURIComponent(picture)}")`);
}

/** @type {(number: number) => string} */
function kindOf(number) {
  return (number + Math.floor(number / 8)) % 2 === 0 ? 'light' : 'dark';
}

/** @type {(position: Position, number: number) => string} */
function classesOf(position, number) {
  const { squares, from, to, differing } = position;
  let name = `square ${kindOf(number)}`;
  if (squares[number]) name += ` piece ${squares[number]}`;
  if (number === from) name += ' from';
  if (number === to) name += ' to';
  if (differing.has(squareName(number))) name += ' off';
  return name;
}

/**
 * What is drawn of a board after a ply. Squares that differ belong to the board as it is now.
 * @type {(board: Board, ply: number, live: boolean) => Position}
 */
export function positionOf(board, ply, live) {
  const known = Math.min(ply, board.positions.length - 1);
  const fen = board.positions[known] || '';
  /** @type {{ from?: number, to?: number }} */
  const moved = known === ply && ply > 0 ? movedSquares(board.positions[ply - 1], fen) : {};
  return { fen, squares: squaresOf(fen), from: moved.from, to: moved.to, differing: new Set(live ? board.differing : []) };
}

/** A small diagram. */
export class Picture {
  constructor() {
    this.root = element('div', 'diagram small');
    this.root.setAttribute('aria-hidden', 'true');
    /** @type {HTMLElement[]} */
    this.cells = [];
    for (let number = 0; number < 64; number += 1) this.cells.push(this.root.appendChild(element('i')));
  }

  /** @type {(position: Position) => void} */
  show(position) {
    this.cells.forEach((cell, number) => {
      const name = classesOf(position, number);
      if (cell.className !== name) cell.className = name;
    });
  }
}

/** A large diagram with its coordinates. */
export class Table {
  /** @param {HTMLElement} root */
  constructor(root) {
    this.root = root;
    this.root.className = 'diagram table';
    this.root.setAttribute('role', 'table');
    /** @type {boolean | null} */
    this.turned = null;
    /** @type {HTMLElement[]} */
    this.cells = [];
    this.turn(false);
  }

  /**
   * Lays the squares out, with White or Black below.
   * @type {(turned: boolean) => void}
   */
  turn(turned) {
    if (turned === this.turned) return;
    this.turned = turned;
    this.cells = [];
    this.root.replaceChildren();
    const order = [0, 1, 2, 3, 4, 5, 6, 7];
    if (turned) order.reverse();
    for (const row of order) {
      const line = this.root.appendChild(element('div', 'row'));
      line.setAttribute('role', 'row');
      line.appendChild(this.heading('rowheader', 'rank', String(8 - row)));
      for (const column of order) {
        const cell = line.appendChild(element('div'));
        cell.setAttribute('role', 'cell');
        cell.appendChild(element('span', 'unseen'));
        this.cells[row * 8 + column] = cell;
      }
    }
    const last = this.root.appendChild(element('div', 'row'));
    last.setAttribute('role', 'row');
    last.appendChild(this.heading('cell', 'rank', ''));
    for (const column of order) last.appendChild(this.heading('columnheader', 'file', FILES[column]));
  }

  /** @type {(role: string, name: string, text: string) => HTMLElement} */
  heading(role, name, text) {
    const made = element('div', name, text);
    made.setAttribute('role', role);
    return made;
  }

  /** @type {(position: Position, label: Words) => void} */
  show(position, label) {
    if (this.root.getAttribute('aria-label') !== String(label)) this.root.setAttribute('aria-label', String(label));
    this.cells.forEach((cell, number) => {
      const name = classesOf(position, number);
      if (cell.className !== name) cell.className = name;
      const square = squareName(number);
      const piece = position.squares[number];
      const words = [square, piece ? pieceName(piece) : message('square.empty')];
      if (number === position.from || number === position.to) words.push(message('square.last_move'));
      if (position.differing.has(square)) words.push(message('square.differs'));
      say(/** @type {Node} */ (cell.firstChild), linked('comma', words));
    });
  }
}
