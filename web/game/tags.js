// The tags of a published game, in UTF-8: what values they may have, and the text with them. Pure.
//
// `record` writes seven tags in ASCII. Its movetext stays as it is, after tag pairs that are written anew.

import { Complaint, message } from '../../live/show/page/message.js';

/** A period of a time control as it is written: no moves are 0, and an unknown unit is empty.
 * @typedef {{ moves: number, base: number, increment: string, unit: string }} Period */

const ROSTER = ['Event', 'Site', 'Date', 'Round', 'White', 'Black', 'Result']; // the first tags, in order
const GAME_SAYS = ['Result', 'FEN', 'SetUp', 'PlyCount', 'Termination', 'Variant'];
const LONGEST_VALUE = 255; // characters of a value, as PGN has it
const TITLES = ['GM', 'IM', 'FM', 'CM', 'WGM', 'WIM', 'WFM', 'WCM', 'AGM', 'AIM', 'AFM', 'ACM', 'NM', 'WNM', 'LM'];
const NONE = ['', '-', '0']; // what pairing programs write if a player has no rating, title or FIDE id
const HIGHEST_RATING = 3999;
const JOINERS = '\u200c\u200d'; // they can't be seen, and Persian and Indian scripts need them
const PAIR = /\[(\w+) "((?:[^"\\]|\\.)*)"\]/g;
const TIME_CONTROL = /^(?:\*\d+|[?-]|)$/; // what PGN has beside periods
const PERIOD = new RegExp( // as an arbiter or PGN writes it: 40 moves in 90 minutes, with 30 seconds for each move
  "^(?:(?<moves>\\d{1,3}) ?/ ?)?(?<base>\\d{1,6}) ?" +
    "(?:(?<minutes>['’′]|m|min|minutes|Min\\.?)|(?<seconds>''|’’|′′|[\"”″]|s|sec|seconds|Sek\\.?))?" +
    "(?: ?\\+ ?(?<increment>\\d{1,3}) ?(?:''|’’|′′|[\"”″]|s|sec|seconds|Sek\\.?)?(?: ?/ ?(?:move|Zug))?)?$",
);
const [MOST_MINUTES, MOST_MINUTES_FOR_MOVES] = [100, 150]; // base times without a unit are in minutes up to these
const LEAST_SECONDS = 300; // and in seconds from this
const [MINUTES, SECONDS] = ['min', 's'];
const UNITS = [MINUTES, SECONDS];

/** A value that its tag can't have. The message says what to type; the name of the value goes before it. */
export class Malformed extends Complaint {}

/** @type {(text: string) => string} */
const quoted = (text) => `'${text}'`;

/** @type {(text: string) => string} the visible text: each kind of blank as a blank, and no invisible marks */
export function cleaned(text) {
  const letters = [...text].map((letter) => {
    if (/^\p{Zs}$/u.test(letter)) return ' ';
    return /^\p{Cf}$/u.test(letter) && !JOINERS.includes(letter) ? '' : letter;
  });
  return letters.join('').trim();
}

/** @type {(text: string) => boolean} whether each character can be printed, except those that join letters */
export function isSeen(text) {
  return [...text].every((letter) => letter === ' ' || JOINERS.includes(letter) || !/^[\p{C}\p{Z}]$/u.test(letter));
}

/** @type {(name: string, text: string) => string} as it is published; throws Malformed if the tag can't have it */
export function valueOf(name, text) {
  const value = cleaned(text);
  if (!isSeen(value)) throw new Malformed(message('tag.unseen_character'));
  const length = [...value].length;
  if (length > LONGEST_VALUE) throw new Malformed(message('tag.long', { count: length, most: LONGEST_VALUE }));
  const check = CHECKS.find(([ending]) => name.endsWith(ending));
  return check ? check[1](value) : value;
}

/** @type {(text: string) => string} */
function rating(text) {
  if (NONE.includes(text)) return '';
  if (!/^[0-9]{1,4}$/.test(text) || Number(text) < 1 || Number(text) > HIGHEST_RATING) {
    throw new Malformed(message('tag.no_rating', { text: quoted(text) }));
  }
  return String(Number(text));
}

/** @type {(text: string) => string} */
function title(text) {
  if (NONE.includes(text)) return '';
  if (!TITLES.includes(text.toUpperCase())) {
    throw new Malformed(message('tag.no_title', { text: quoted(text), titles: TITLES.slice(0, 8).join(', ') }));
  }
  return text.toUpperCase();
}

/** @type {(text: string) => string} */
function fideId(text) {
  if (/^[0-]*$/.test(text)) return '';
  if (!/^[0-9]{3,10}$/.test(text)) throw new Malformed(message('tag.no_fide_id', { text: quoted(text) }));
  return text;
}

/** @type {(text: string) => string} in seconds, as PGN has it; `40/90+30` is 40 moves in 90 minutes, and 30 seconds for each move */
function timeControl(text) {
  if (TIME_CONTROL.test(text)) return text;
  const parts = text.split(/[:,]/);
  const periods = parts.flatMap((part) => periodOf(part) || []);
  if (periods.length < parts.length || !periods.slice(0, -1).every(({ moves }) => moves)) {
    throw new Malformed(message('tag.no_time_control', { text: quoted(text), how: message('tag.time_control_how') }));
  }
  const known = withUnits(periods);
  if (!known.every(({ unit }) => unit)) {
    const [minutes, seconds] = UNITS.map((unit) => known.map((period) => typed(period, unit)).join(':'));
    throw new Malformed(message('tag.minutes_or_seconds', { text: quoted(text), minutes, seconds }));
  }
  known.forEach((period, at) => {
    const { moves, base, unit } = period;
    if (moves <= base || periods[at].unit) return;
    const turned = typed({ ...period, moves: base, base: moves, unit: '' }, '');
    const given = typed(period, unit);
    throw new Malformed(message('tag.moves_and_minutes', { text: quoted(text), moves, base: `${base}${unit}`, turned, typed: given }));
  });
  return known.map((period) => typed({ ...period, base: period.base * (period.unit === MINUTES ? 60 : 1), unit: '' }, '')).join(':');
}

/** @type {(text: string) => Period | null} null if it is none */
function periodOf(text) {
  const found = PERIOD.exec(text.trim());
  if (!found) return null;
  const { moves = '0', base, minutes, seconds, increment } = /** @type {{ [part: string]: string }} */ (found.groups);
  if (minutes && Number(base) === 0) return null;
  const unit = minutes ? MINUTES : seconds ? SECONDS : '';
  return { moves: Number(moves), base: Number(base), increment: increment ? `+${Number(increment)}` : '', unit };
}

/** @type {(period: Period) => boolean} whether a base time without a unit is in seconds */
const isLong = ({ base }) => base === 0 || base >= LEAST_SECONDS;

/** @type {(period: Period, unit: string) => string} a period as it may be typed, in this unit if its own isn't known */
function typed(period, unit) {
  const shown = isLong(period) && period.unit !== MINUTES ? '' : period.unit || unit;
  return `${period.moves ? `${period.moves}/` : ''}${period.base}${shown}${period.increment}`;
}

/** @type {(periods: Period[]) => Period[]} a number alone has no unit, nor has a small one beside large ones */
function withUnits(periods) {
  const most = periods[0].moves ? MOST_MINUTES_FOR_MOVES : MOST_MINUTES;
  const areShort = periods.every(({ unit, base }) => unit || (base > 0 && base <= most));
  const isMeant = periods.some(({ moves, increment, unit }) => moves || increment || unit === MINUTES);
  const rest = areShort && isMeant && !periods.some(({ unit }) => unit === SECONDS) ? MINUTES : '';
  return periods.map((period) => ({ ...period, unit: period.unit || (isLong(period) ? SECONDS : rest) }));
}

/** @type {[string, (text: string) => string][]} */
const CHECKS = [['Elo', rating], ['USCF', rating], ['Title', title], ['FideId', fideId], ['TimeControl', timeControl]];

/** @type {(value: string) => string} the text between the quotes of a tag pair */
const escaped = (value) => value.replaceAll('\\', '\\\\').replaceAll('"', '\\"');

/** @type {(head: string) => Map<string, string>} the tags of a text that `record` made */
const pairsOf = (head) => new Map([...head.matchAll(PAIR)].map(([, name, value]) => [name, value.replace(/\\(.)/g, '$1')]));

/** The text of a game with these tags, { name: value }, as it is published: the roster first, the others in order of their names. What the
 * game itself says, also its result, comes from the recorded text; `says` is what else is known of it.
 * @type {(recorded: string, tags: Tags, says?: Tags) => string} */
export function published(recorded, tags, says = {}) {
  if (!recorded) return '';
  const end = recorded.indexOf('\n\n');
  const head = end < 0 ? recorded : recorded.slice(0, end);
  const values = pairsOf(head);
  for (const [name, value] of Object.entries(tags)) {
    if (value && !GAME_SAYS.includes(name)) values.set(name, value);
  }
  for (const [name, value] of Object.entries(says)) values.set(name, value);
  const others = [...values.keys()].filter((name) => !ROSTER.includes(name)).sort();
  const lines = [...ROSTER, ...others].map((name) => `[${name} "${escaped(values.get(name) ?? '?')}"]`);
  return lines.join('\n') + recorded.slice(head.length);
}
