// Players: a title before the name and a rating after it, if known; in a card the name alone, and below it what is known about
// him, and his team.

import { element } from './diagram.js';
import { message } from './message.js';

/**
 * @typedef {import('./card.js').Board} Board
 * @typedef {import('./message.js').Words} Words
 */

/** @type {('white' | 'black')[]} */
const SIDES = ['white', 'black'];

/** @type {(board: Board, index: number) => Words[]} */
function partsOf(board, index) {
  const name = board[SIDES[index]] || (index === 0 ? message('side.white') : message('side.black'));
  return [board.titles ? board.titles[index] : '', name, board.ratings ? board.ratings[index] : ''];
}

/**
 * The name alone.
 * @type {(board: Board, index: number) => Words}
 */
export function nameOf(board, index) {
  return partsOf(board, index)[1];
}

/**
 * What is known about a player besides his name and his team: 'GM 2401 SUI'.
 * @type {(board: Board, index: number) => string}
 */
export function aboutOf(board, index) {
  const [title, , rating] = partsOf(board, index);
  return [title, rating, givenOf(board, 'federations', index)].filter((part) => part).join(' ');
}

/**
 * A player's team.
 * @type {(board: Board, index: number) => string}
 */
export function teamOf(board, index) {
  return givenOf(board, 'teams', index);
}

/**
 * A player's federation and team.
 * @type {(board: Board, index: number) => string}
 */
export function whereFrom(board, index) {
  return [givenOf(board, 'federations', index), teamOf(board, index)].filter((part) => part).join(', ');
}

/**
 * What a board has of a player; nothing if it has no such field.
 * @type {(board: Board, what: 'federations' | 'teams', index: number) => string}
 */
function givenOf(board, what, index) {
  const given = board[what];
  return given ? given[index] : '';
}

/**
 * A player in a line: 'GM Anna Kern 2401'.
 * @type {(board: Board, index: number) => string}
 */
export function wordsOf(board, index) {
  return partsOf(board, index).filter((part) => part).join(' ');
}

/**
 * Shows a player there, as text and never as markup.
 * @type {(where: HTMLElement, board: Board, index: number) => void}
 */
export function showPlayer(where, board, index) {
  if (where.textContent === wordsOf(board, index)) return;
  const [title, name, rating] = partsOf(board, index);
  where.replaceChildren();
  if (title) where.append(element('span', 'title', title), ' ');
  where.append(element('bdi', '', name));
  if (rating) where.append(' ', element('span', 'rating', rating));
}
