// Running clocks: the recorder sends what they showed, and a page counts on from there.

/** @typedef {import('./card.js').Board} Board */

/**
 * A time in seconds; NaN if it isn't one.
 * @type {(text: string) => number}
 */
function secondsOf(text) {
  return text.split(':').reduce((seconds, part) => 60 * seconds + Number(part || NaN), 0);
}

/**
 * What the clock of a board shows at a time, in seconds since 1970. 0 is White's, 1 is Black's.
 * @type {(board: Board, index: number, now: number) => string}
 */
export function clockAt(board, index, now) {
  const text = board.clocks[index];
  if (board.runs !== 'wb'[index] || board.result !== '*' || !text || board.at === null) return text;
  const seconds = secondsOf(text);
  if (Number.isNaN(seconds)) return text;
  const left = Math.max(0, seconds - Math.max(0, Math.floor(now - board.at)));
  /** @type {(number: number) => string} */
  const two = (number) => String(number % 60).padStart(2, '0');
  return `${Math.floor(left / 3600)}:${two(Math.floor(left / 60))}:${two(left)}`;
}
