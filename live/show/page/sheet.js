// What a score sheet has above the moves, besides the event and the players: the day, the place and the time control. Pure.

import { linked, message } from './message.js';

/**
 * @typedef {import('./message.js').Message} Message
 * @typedef {import('./message.js').Words} Words
 */

const MONTHS = [
  message('month.january'), message('month.february'), message('month.march'), message('month.april'),
  message('month.may'), message('month.june'), message('month.july'), message('month.august'),
  message('month.september'), message('month.october'), message('month.november'), message('month.december'),
];
const PERIOD = /^(?:(\d+)\/)?(\d+)(?:\+(\d+))?$/; // moves, seconds, and seconds for each move

/**
 * A date as PGN has it, in words: '2024.05.31' is '31 May 2024'. What isn't known is left out.
 * @type {(date: string) => string}
 */
export function dateInWords(date) {
  const [year, month, day] = date.split('.').map((part) => (part.includes('?') ? '' : part));
  return [day && String(Number(day)), MONTHS[Number(month) - 1], year].filter((part) => part).join(' ');
}

/** @type {(seconds: number) => Message} */
function lasting(seconds) {
  return seconds % 60 === 0 ? message('time.minutes', { minutes: seconds / 60 }) : message('time.seconds', { seconds });
}

/**
 * A time control as PGN has it, in words: '5400+30' is '90 min + 30 s a move'. One of another kind is shown as it is.
 * @type {(control: string) => Words}
 */
export function controlInWords(control) {
  const periods = control.split(':').map((part) => PERIOD.exec(part));
  if (periods.includes(null)) return control;
  return linked('then', /** @type {RegExpExecArray[]} */ (periods).map(([, moves, seconds, more]) => {
    const base = lasting(Number(seconds));
    const time = Number(more) > 0 ? message('control.with_increment', { base, seconds: Number(more) }) : base;
    return moves ? message('control.of_moves', { moves, time }) : time;
  }));
}

/**
 * All of it in one line, as far as it is known.
 * @type {(game: { date?: string, place?: string, control?: string }) => string}
 */
export function sheetOf({ date, place, control }) {
  return [dateInWords(date || ''), place || '', controlInWords(control || '')].filter((part) => part).join(' \u00b7 ');
}
