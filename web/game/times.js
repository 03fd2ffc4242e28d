// The lines of NAME.times: when the bytes of a capture came, and what else happened at its board. docs/FORMATS.md has the
// format. Pure.
//
// The game follows from NAME.dgt alone: what is lost here costs times, and never a move.

import {
  ADDED, ANSWERED, ASKED, AWAY, BACK, BEGIN, BROUGHT, CALLED, GONE, HEARD, LOOKED, OPENED, OVER, REOPENED, STOPPED, SUSPECT, TOOK,
} from '../child/attended.js';
import { message } from '../../live/show/page/message.js';

/** @typedef {{ version: number, size?: undefined }} Newer a file of another version of the format */

export const HEADED = 4096; // bytes of a capture that a new heading has the digest of, at most
const DIGESTED = 64; // the same in a part of one

const VERSION = 1;
const OF_BYTES = [HEARD, BROUGHT, ADDED];
const COUNTS = [BEGIN, AWAY, ...OF_BYTES, STOPPED, ASKED, OVER, SUSPECT]; // words with a number
const ALONE = [OPENED, ANSWERED, GONE, CALLED, TOOK, LOOKED, BACK, REOPENED];
const TOO_LARGE = 2n ** 64n;
const [FNV_START, FNV_TIMES] = [14695981039346656037n, 1099511628211n]; // of FNV-1a with 64 bits
export const NOTHING = message('times.nothing');

const NUMBER = '(0|[1-9][0-9]{0,19})';
const EVENT = `${NUMBER} (?:(${COUNTS.join('|')}) ${NUMBER}|(${ALONE.join('|')}))\n`;
const VERSIONED = new RegExp(`^${NUMBER} times(?: ${NUMBER})?\n`);
const HEADING = new RegExp(`^${VERSION} times ${NUMBER}\n${NUMBER} digest ${NUMBER}\n`);

/** @type {(number: string | number) => boolean} */
const isTooLarge = (number) => BigInt(number) >= TOO_LARGE;

/** @type {(content: Uint8Array) => bigint} FNV-1a with 64 bits */
export function digest(content) {
  return content.reduce((state, byte) => BigInt.asUintN(64, (state ^ BigInt(byte)) * FNV_TIMES), FNV_START);
}

/** @type {(generation: number, first: Uint8Array) => string} of a capture with these first bytes */
export const heading = (generation, first) => `${VERSION} times ${generation}\n${first.length} digest ${digest(first)}\n`;

/** The line of an event: [when, what, how much], where the last is null for a word alone.
 * @type {(event: [when: number | string, what: string, count: number | null]) => string} */
const line = ([at, what, count]) => (count === null ? `${at} ${what}\n` : `${at} ${what} ${count}\n`);

/** @type {(events: Noted[], began?: number) => string} of a call that began then, and of calls that begin among them */
export function lines(events, began = 0) {
  let from = began;
  return events.map(([when, what, count]) => {
    if (what === BEGIN) from = when;
    return line([Math.max(0, when - from), what, count]);
  }).join('');
}

/** The events from an offset on, up to what is none: where each begins and ends, its time, its word and its number.
 * @type {(text: string, start: number) => Generator<{ begins: number, ends: number, at: string, what: string, count: number }>} */
function* eventsOf(text, start) {
  const event = new RegExp(EVENT, 'y');
  event.lastIndex = start;
  for (;;) {
    const begins = event.lastIndex;
    const [, at, counted, count, alone] = event.exec(text) || [];
    if (at === undefined || isTooLarge(at) || isTooLarge(count || 0)) return;
    yield { begins, ends: event.lastIndex, at, what: counted || alone, count: Number(count || 0) };
  }
}

/** @type {(before: number, event: { what: string, count: number }) => number} how many bytes are accounted for, after an event */
function covers(before, { what, count }) {
  if (what === BEGIN) return count;
  return OF_BYTES.includes(what) ? before + count : before;
}

/** The content of a file with a heading: how often the game has gone back; how many bytes the heading describes, and their digest; where the
 * heading ends; where the events end; and how many bytes of the capture they account for. Of a file of another version of the format, {
 * version } alone. Null if nothing can be read.
 * @type {(text: string) => Found | Newer | null} */
export function kept(text) {
  const [headed, ...numbers] = HEADING.exec(text) || [];
  if (!headed || numbers.some(isTooLarge)) {
    const [, version] = VERSIONED.exec(text) || [];
    return version && Number(version) !== VERSION ? { version: Number(version) } : null;
  }
  const [generation, size] = numbers.map(Number);
  const found = { generation, size, digest: BigInt(numbers[2]), begins: headed.length, ends: headed.length, covered: size };
  for (const event of eventsOf(text, headed.length)) {
    found.ends = event.ends;
    found.covered = covers(found.covered, event);
  }
  return found;
}

/** Whether what was found in a file belongs to this capture.
 * @param {Found | Newer | null} found @param {Uint8Array} capture @returns {found is Found} */
export function isOf(found, capture) {
  if (!found || found.version !== undefined || capture.length === 0 || found.size > capture.length) return false;
  return digest(capture.subarray(0, found.size)) === found.digest;
}

/** A file of which only those events stay that account for the capture's first so many bytes, which begin with `first`; and no end, since
 * the game goes on, or has another one. If somebody has looked at its alarms later, that stays too.
 * @type {(text: string, found: Found, size: number, first: Uint8Array) => string} */
export function cut(text, found, size, first) {
  const parts = [found.size <= size ? text.slice(0, found.begins) : heading(found.generation, first)];
  let covered = found.size;
  for (const event of eventsOf(text, found.begins)) {
    const before = covered;
    covered = covers(covered, event);
    if (covered > size) {
      const at = event.what === BEGIN ? 0 : event.at;
      if (event.what !== BEGIN && size > before) parts.push(line([at, event.what, size - before]));
      const later = [...eventsOf(text, event.ends)];
      if (event.begins > found.begins && later.some(({ what }) => what === LOOKED)) parts.push(line([at, LOOKED, null]));
      break;
    }
    if (event.what !== OVER) parts.push(text.slice(event.begins, event.ends));
  }
  return parts.join('');
}

/** What the file of a new capture begins with, which goes on from so many bytes of the one with these times, and begins with `first`; empty if
 * they can't be read.
 * @type {(text: string, generation: number, size: number, first: Uint8Array) => string} */
export function begunWith(text, generation, size, first) {
  const found = kept(text);
  if (!found || found.version !== undefined) return '';
  return heading(generation, first.subarray(0, found.size)) + cut(text, found, size, first).split('\n').slice(2).join('\n');
}

/** A capture with its times in parts of so many bytes or up to twice as many; the text is empty if there are no times. Told one after the
 * other they tell what they tell whole. Bytes that came before a call are told before it, without a time.
 * @type {(text: string, capture: Uint8Array, most: number) => { text: string, bytes: Uint8Array }[]} */
export function inParts(text, capture, most) {
  if (capture.length <= most) return [{ text, bytes: capture }];
  const parts = /** @type {{ text: string, bytes: Uint8Array }[]} */ ([]);
  const found = /** @type {Found} */ (kept(text));
  let [from, to, covered, events] = [0, 0, 0, ''];
  const end = () => {
    const bytes = capture.subarray(from, to);
    parts.push({ text: events && heading(found.generation, bytes.subarray(0, DIGESTED)) + events, bytes });
    [from, events] = [to, ''];
  };
  for (const event of isOf(found, capture) ? eventsOf(text, found.begins) : []) {
    const before = covered;
    covered = covers(before, event);
    let coming = Math.max(0, covered - before);
    for (; coming > most && to < capture.length && from + most < capture.length; end()) {
      const now = from + most - to;
      if (event.what !== BEGIN) events += line([event.at, event.what, now]);
      [to, coming] = [to + now, coming - now];
    }
    to += coming;
    if (event.what === BEGIN) events += line([event.at, BEGIN, to - from]);
    else events += coming > 0 ? line([event.at, event.what, coming]) : text.slice(event.begins, event.ends);
    if (to - from >= most && to < capture.length) end();
  }
  for (to = Math.max(to, from + most); to < capture.length; to = from + most) end();
  to = capture.length;
  end();
  return parts;
}

/** A call that adds so many bytes after a game's end, with which the game ends: what happens in it, and how much. Bytes behind them have no
 * times any more.
 * @type {(size: number, added: number, total: number) => Counted[]} */
export function adding(size, added, total) {
  const isLast = size + added === total;
  const end = size + added;
  return isLast ? [[BEGIN, size], [ADDED, added], [OVER, end]] : [[BEGIN, total], [OVER, end]];
}

/** The file of a game that nobody records now, after so many bytes of whose capture these were added.
 * @type {(text: string, size: number, added: number, capture: Uint8Array) => string} */
export function withAdded(text, size, added, capture) {
  const found = kept(text);
  if (!isOf(found, capture.subarray(0, size))) return text;
  /** @type {Noted[]} */
  const events = adding(size, added, capture.length).map(([what, count]) => [0, what, count]);
  return cut(text, found, size, capture.subarray(0, Math.min(HEADED, size))) + lines(events);
}

/** Whether a file found instead of this one is an earlier one of the same times: replacing it loses nothing. That the game was over doesn't
 * count.
 * @type {(found: string, now: string) => boolean} */
export function isEarlier(found, now) {
  /** @type {(text: string) => string} */
  const withoutEnds = (text) => text.replace(/^[0-9]+ over [0-9]+\n/gm, '');
  return withoutEnds(now).startsWith(withoutEnds(found));
}

/** @type {(words: string[], what: string) => string[]} the words that say how the line is, after one more of them */
export function lineAfter(words, what) {
  if (what === OPENED || what === GONE) return [what];
  if (what === ANSWERED) return [OPENED, ANSWERED];
  return what === CALLED ? [] : words;
}

/** What is said of a file of this size, whose capture has so many bytes.
 * @type {(found: Found, name: string, size: number, capture: string, have: number) => Message[]} */
export function toldOf(found, name, size, capture, have) {
  const told = [];
  const more = found.covered - have;
  if (size > found.ends) told.push(message('times.torn', { path: name, count: size - found.ends, nothing: NOTHING }));
  if (more > 0) told.push(message('times.covers_more', { path: name, count: more, capture, nothing: NOTHING }));
  else if (more < 0) told.push(message('times.covers_less', { path: name, count: -more, capture, nothing: NOTHING }));
  return told;
}

/** @type {(found: Found | Newer | null, name: string, other: string) => Message} it is kept under this other name */
export function toldOfOther(found, name, other) {
  const isNewer = found && found.version !== undefined;
  const why = isNewer ? message('times.of_newer') : found ? message('times.of_another') : message('times.unreadable');
  return message('times.set_aside', { path: name, why, kept: other, nothing: NOTHING });
}

/** @type {(name: string, have: number) => Message} what is said if there is no file beside so many bytes */
export const toldOfMissing = (name, have) => message('times.missing', { path: name, count: have, nothing: NOTHING });

/** @type {(name: string, why: Words) => Message} what is said if it can't be read or written */
export const toldOfTrouble = (name, why) => message('times.unkept', { path: name, why, nothing: NOTHING });
