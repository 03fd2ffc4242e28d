// What the program reports of a game: the lines of `watch`, and the pairs of `recover`. They are read only here.

import { pictureOfPlacement } from '../line/protocol.js';

export const NO_TIME = '--:--:--'; // of a clock that isn't connected

/** @type {(event: Reported) => string} the words of a line without its offset */
export function wordsOf(event) {
  switch (event.kind) {
    case 'move':
      return [event.corrects ? 'correction' : 'move', event.number, event.san, event.clock].filter((part) => part).join(' ');
    case 'result':
      return `result ${event.outcome}`;
    case 'differs':
      return ['differs', ...event.squares].join(' ');
    case 'fault':
      return `fault ${event.what}`;
    default:
      return event.kind;
  }
}

/** @type {(move: Move) => string} `12. Nf3` */
export const shortOf = (move) => `${move.number} ${move.san}`;

/** @type {(event: Reported) => string} as it is shown: `12. Nf3  1:12:07`, `correction 12. Nf3  1:12:07` */
export function shownOf(event) {
  if (event.kind === 'move') {
    return (event.corrects ? 'correction ' : '') + [shortOf(event), event.clock].filter((part) => part).join('  ');
  }
  return event.kind === 'recovered' ? event.text : wordsOf(event);
}

/** @type {(words: string) => Reported | null} the event of a line, from its words after the offset; null if it is none */
export function eventOf(words) {
  const at = words.indexOf(' ');
  const kind = at < 0 ? words : words.slice(0, at);
  const rest = at < 0 ? '' : words.slice(at + 1);
  const parts = rest.split(' ');
  if ((kind === 'move' || kind === 'correction') && (parts.length === 2 || parts.length === 3)) {
    return { kind: 'move', number: parts[0], san: parts[1], clock: parts[2] || '', corrects: kind === 'correction' };
  }
  if (kind === 'result' && rest) return { kind, outcome: rest };
  if (kind === 'differs' && rest) return { kind, squares: parts };
  if (kind === 'agrees') return { kind };
  if (kind === 'fault') return { kind, what: rest };
  if (kind === 'picture' && rest) return { kind, placement: rest };
  if (kind === 'position' && rest) return { kind, fen: rest };
  if (kind === 'clock' && parts.length === 2) return { kind, white: parts[0], black: parts[1] };
  return kind === 'recovered' ? { kind, text: words } : null;
}

/** @type {(text: string) => Line | null} null for the last line, `rest N`, and for anything else */
export function lineOf(text) {
  const match = /^([0-9]{1,15}) ([^]*)$/.exec(text);
  const event = match ? eventOf(match[2]) : null;
  return match && event ? { offset: Number(match[1]), event } : null;
}

const known = /** @type {Map<string, number[]>} */ (new Map());
const MOST_KNOWN = 4096;

/** @type {(placement: string) => number[]} the picture of a placement */
export function codesOf(placement) {
  let codes = known.get(placement);
  if (!codes) {
    codes = pictureOfPlacement(placement);
    if (known.size >= MOST_KNOWN) known.clear();
    known.set(placement, codes);
  }
  return codes;
}
