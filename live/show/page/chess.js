// What a FEN and a move in SAN say, as far as a page needs it. It knows no rule of the game.

import { linked, message } from './message.js';

/**
 * @typedef {import('./message.js').Message} Message
 * @typedef {import('./message.js').Words} Words
 */

export const FILES = 'abcdefgh';
/** @type {{ [piece: string]: Message }} */
export const NAMES = {
  K: message('piece.king'),
  Q: message('piece.queen'),
  R: message('piece.rook'),
  B: message('piece.bishop'),
  N: message('piece.knight'),
  P: message('piece.pawn'),
};

/**
 * The 64 squares of a FEN from a8 to h1: 'wK', 'bP', or '' for an empty one.
 * @type {(fen: string) => string[]}
 */
export function squaresOf(fen) {
  const squares = [];
  for (const letter of fen.split(' ')[0]) {
    if (letter >= '1' && letter <= '8') {
      for (let count = Number(letter); count > 0; count -= 1) squares.push('');
    } else if (NAMES[letter.toUpperCase()]) {
      squares.push((letter === letter.toUpperCase() ? 'w' : 'b') + letter.toUpperCase());
    }
  }
  while (squares.length < 64) squares.push('');
  return squares.slice(0, 64);
}

/** @type {{ [piece: string]: number }} */
const VALUES = { P: 1, N: 3, B: 3, R: 5, Q: 9, K: 0 };

/** @type {(fen: string, side: string) => { [piece: string]: number }} */
function countOf(fen, side) {
  /** @type {{ [piece: string]: number }} */
  const counts = { Q: 0, R: 0, B: 0, N: 0, P: 0 };
  for (const piece of squaresOf(fen)) {
    if (piece[0] === side && piece[1] !== 'K') counts[piece[1]] += 1;
  }
  return counts;
}

/**
 * By how many points of material White is ahead; a negative number if it is Black.
 * @type {(fen: string) => number}
 */
export function aheadOf(fen) {
  /** @type {(side: string) => number} */
  const points = (side) => Object.entries(countOf(fen || '', side)).reduce((sum, [piece, count]) => sum + count * VALUES[piece], 0);
  return points('w') - points('b');
}

/**
 * The pieces of a side that were taken since the start, queens first: 'QRNPP'. A pawn that was promoted was not taken.
 * @type {(start: string, fen: string, side: string) => string}
 */
export function takenOf(start, fen, side) {
  const before = countOf(start, side);
  const now = countOf(fen, side);
  let taken = '';
  let promoted = 0;
  for (const piece of ['Q', 'R', 'B', 'N']) {
    promoted += Math.max(0, now[piece] - before[piece]);
    taken += piece.repeat(Math.max(0, before[piece] - now[piece]));
  }
  return taken + 'P'.repeat(Math.max(0, before.P - now.P - promoted));
}

/**
 * The name of a square by its number: a8 is 0, h1 is 63.
 * @type {(number: number) => string}
 */
export function squareName(number) {
  return FILES[number % 8] + (8 - Math.floor(number / 8));
}

/**
 * Who is to move: 'w' or 'b'.
 * @type {(fen: string) => string}
 */
export function toMove(fen) {
  return fen && fen.split(' ')[1] === 'b' ? 'b' : 'w';
}

/**
 * Where the piece that was moved came from and went to. For castling, it is the king's move.
 * @type {(before: string, after: string) => { from?: number, to?: number }}
 */
export function movedSquares(before, after) {
  const one = squaresOf(before);
  const other = squaresOf(after);
  const side = toMove(before);
  const left = [];
  const reached = [];
  for (let number = 0; number < 64; number += 1) {
    if (one[number] !== other[number]) {
      if (one[number][0] === side) left.push(number);
      if (other[number][0] === side) reached.push(number);
    }
  }
  /** @type {(squares: string[]) => (number: number) => boolean} */
  const king = (squares) => (number) => squares[number][1] === 'K';
  const from = left.find(king(one));
  const to = reached.find(king(other));
  return { from: from === undefined ? left[0] : from, to: to === undefined ? reached[0] : to };
}

/**
 * The number of a ply as on a score sheet: { number: 12, side: 'w' }. `start` is the FEN before the first ply.
 * @type {(start: string, ply: number) => { number: number, side: string }}
 */
export function numbered(start, ply) {
  const first = start ? Number(start.split(' ')[5]) || 1 : 1;
  const plies = ply + (toMove(start) === 'b' ? 1 : 0);
  return { number: first + Math.floor(plies / 2), side: plies % 2 === 0 ? 'w' : 'b' };
}

/**
 * A ply with its number: '12. Nf3', '12... Nc6'.
 * @type {(start: string, ply: number, san: string) => string}
 */
export function withNumber(start, ply, san) {
  const { number, side } = numbered(start, ply);
  return `${number}.${side === 'w' ? '' : '..'} ${san}`;
}

/**
 * A move as it is said: 'knight f3', 'pawn e4 takes d5, check'.
 * @type {(san: string) => Words}
 */
export function spoken(san) {
  const end = san.endsWith('#') ? [message('read.mate')] : san.endsWith('+') ? [message('read.check')] : [];
  const move = san.replace(/[+#]$/, '');
  if (move === 'O-O') return linked('comma', [message('read.castles_short'), ...end]);
  if (move === 'O-O-O') return linked('comma', [message('read.castles_long'), ...end]);
  const match = /^([KQRBN]?)([a-h]?[1-8]?)(x?)([a-h][1-8])(?:=([QRBN]))?$/.exec(move);
  if (!match) return san;
  const [, piece, from, takes, to, becomes] = match;
  const promoted = becomes && message('read.becomes', { piece: NAMES[becomes] });
  const words = [NAMES[piece || 'P'], from, takes && message('read.takes'), to, promoted];
  return linked('comma', [linked('space', words.filter((word) => word)), ...end]);
}

/**
 * The same with its number and who makes it: '12, White: knight f3'.
 * @type {(start: string, ply: number, san: string) => Words}
 */
export function spokenPly(start, ply, san) {
  const { number, side } = numbered(start, ply);
  return linked('colon', [linked('comma', [String(number), side === 'w' ? message('side.white') : message('side.black')]), spoken(san)]);
}

/**
 * A piece in words: 'white knight'.
 * @type {(piece: string) => Message}
 */
export function pieceName([side, kind]) {
  const piece = NAMES[kind];
  return side === 'w' ? message('piece.white', { piece }) : message('piece.black', { piece });
}

/**
 * A result as it is printed: '1–0', '½–½'. Empty if the game goes on.
 * @type {(result: string) => string}
 */
export function printedResult(result) {
  return result === '*' ? '' : result.replace(/1\/2/g, '½').replace('-', '–');
}

/**
 * Points as they are printed: '2½'.
 * @type {(points: number) => string}
 */
export function printedPoints(points) {
  const whole = Math.floor(points);
  return points === whole ? String(whole) : `${whole || ''}½`;
}

/**
 * What became of a game, as it is printed: '1–0', '0–0 forfeit'. Empty if it goes on.
 * @type {(game: { result: string, forfeit: string }) => string}
 */
export function outcomeOf({ result, forfeit }) {
  return forfeit ? String(message('site.forfeit', { score: printedResult(forfeit) })) : printedResult(result);
}

/**
 * A duration in words: `40 s`, `3 min`, `2 h 05 min`.
 * @type {(seconds: number) => Message}
 */
export function lasting(seconds) {
  const whole = Math.max(0, Math.floor(seconds));
  const minutes = Math.floor(whole / 60);
  if (whole < 120) return message('time.seconds', { seconds: whole });
  if (whole < 7200) return message('time.minutes', { minutes });
  return message('time.hours', { hours: Math.floor(whole / 3600), minutes: String(minutes % 60).padStart(2, '0') });
}
