// Games that aren't played because a player doesn't come: how they are typed, and what PGN has for them. Pure.
//
// PGN has a result if one player wins by it, and no result if both are absent. The tag Termination says that the game was
// not played: `rules infraction`, an administrative forfeit in the words of the standard.

import { message } from '../../live/show/page/message.js';

export const BOTH = '--'; // nobody wins
const [WHITE, BLACK] = ['+-', '-+']; // White wins, Black wins
/** @type {{ [kind: string]: string }} */
const SCORES = { [WHITE]: '1-0', [BLACK]: '0-1', [BOTH]: '0-0' };
const NO_RESULT = '*';
const TERMINATION = 'rules infraction';
/** @type {{ [typed: string]: string }} */
const SPELT = { '+--': WHITE, '--+': BLACK }; // +:- and + - -, as pairing programs write them
const MARKED = /^(?:([01])F?-([01])(?:F|FF|K|FORFEIT)|([01])F-([01])F)$/i;

/** @type {(kind: string) => string} the score of a forfeit; empty if there is none */
export const scoreOf = (kind) => SCORES[kind] || '';

/** @type {(kind: string) => Message} what it comes to */
export const wordsOfForfeit = (kind) => message('forfeit.words', { score: SCORES[kind] });

/** @type {(kind: string) => string} the result in PGN */
export const resultOf = (kind) => (kind === BOTH ? NO_RESULT : SCORES[kind]);

/** @type {(text: string) => string} the forfeit that was typed in a line of its own; empty if it is something else */
export function typedForfeit(text) {
  const words = text.split(/\s+/u).filter((word) => word);
  const word = words.join('').replace(/[–—−:]/g, '-');
  if ((word === BOTH || word === '---') && words.length < 4) return BOTH;
  const spelt = Object.hasOwn(SPELT, word) ? SPELT[word] : word;
  if (spelt === WHITE || spelt === BLACK) return spelt;
  const marked = MARKED.exec(word);
  if (!marked) return '';
  const score = marked.slice(1).filter((part) => part).join('-');
  return Object.keys(SCORES).find((kind) => SCORES[kind] === score) || '';
}

/** The forfeit that counts in a game: it has no move, and no other result was typed. Empty if none does.
 * @type {(kind: string | undefined, plies: number, result: string) => string} */
export function countingForfeit(kind, plies, result) {
  return kind && SCORES[kind] && plies === 0 && resultOf(kind) === result ? kind : '';
}

/** @type {(pgn: string) => boolean} whether a text has no move */
export const isUnplayed = (pgn) => pgn.slice(pgn.indexOf('\n\n') + 2).split(/\s+/).filter((word) => word).length <= 1;

/** @type {(kind: string | undefined, pgn: string) => string} the forfeit that counts in the game with this text; empty if none does */
export function forfeitOf(kind, pgn) {
  const [, result = NO_RESULT] = /^\[Result "(.*)"\]$/m.exec(pgn) || [];
  return countingForfeit(kind, isUnplayed(pgn) ? 0 : 1, result);
}

/** Whether the game with this text, of which a forfeit may be kept, is none: it has no move and no result, and no forfeit counts.
 * @type {(kind: string | undefined, pgn: string) => boolean} */
export const isEmpty = (kind, pgn) => isUnplayed(pgn) && !forfeitOf(kind, pgn) && (!pgn || /^\[Result "\*"\]$/m.test(pgn));

/** @type {(kind: string, plies: number, result: string) => Words} empty if it can be forfeited */
export function whyPlayed(kind, plies, result) {
  const how = kind === BOTH ? message('forfeit.both_lose') : message('forfeit.type_the_result', { result: resultOf(kind) });
  if (plies > 0) return message('forfeit.has_moves', { how });
  return kind === BOTH && result !== NO_RESULT ? message('forfeit.has_result', { result, reopens: NO_RESULT }) : '';
}

/** @type {(result: string) => Words} what is asked about the result of a game without a move: perhaps a player hasn't come */
export function askedUnplayed(result) {
  const forfeit = Object.keys(SCORES).find((kind) => resultOf(kind) === result);
  if (!forfeit || forfeit === BOTH) return message('press.no_move', { result });
  return message('press.no_move_or_absent', { side: message(forfeit === WHITE ? 'side.black' : 'side.white'), forfeit, result });
}

/** @type {(kind: string) => Tags} the tag of what is published of a forfeited game */
export const tagsOfForfeit = (kind) => (kind ? { Termination: TERMINATION } : {});
