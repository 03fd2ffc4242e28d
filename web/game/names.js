// Typed names and dates, changed to what a PGN text allows: a tag's value has at most 100 characters, all printable ASCII. A date is
// `2024.05.31`, with `?` for each unknown digit. And the names of a game's files: NAME.pgn, NAME.dgt. Pure.

import { Complaint, message } from '../../live/show/page/message.js';
import { printable } from './typed.js';

const LONGEST_NAME = 100; // characters of a tag's value

// What passports write for the letters that aren't a basic letter with a mark (the tables for Latin letters of ICAO Doc
// 9303), and for those marked ones that they write as two letters.
/** @type {{ [letter: string]: string }} */
const WRITTEN = {
  ä: 'ae', å: 'aa', æ: 'ae', ð: 'd', đ: 'd', ħ: 'h', ı: 'i', ĳ: 'ij', ĸ: 'q', ł: 'l', ŀ: 'l', ŉ: 'n', ŋ: 'n', ö: 'oe', ø: 'oe',
  œ: 'oe', ß: 'ss', þ: 'th', ŧ: 't', ü: 'ue',
};
/** @type {{ [letter: string]: string }} */
const SIGNS = {
  '‘': "'", '’': "'", '‚': "'", 'ʼ': "'", '′': "'", '´': "'", '“': '"', '”': '"', '„': '"', '«': '"', '»': '"', '″': '"',
  '‐': '-', '‑': '-', '‒': '-', '–': '-', '—': '-', '−': '-', '×': 'x', '·': '.',
};

const PARTS = [
  /^(?<year>[0-9?]{4})[./-](?<month>[0-9?]{1,2})[./-](?<day>[0-9?]{1,2})$/,
  /^(?<day>[0-9?]{1,2})\. ?(?<month>[0-9?]{1,2})\. ?(?<year>[0-9?]{4})$/,
  /^(?<year>[0-9?]{4})[./-](?<month>[0-9?]{1,2})$/,
  /^(?<month>[0-9?]{1,2})\.(?<year>[0-9?]{4})$/,
  /^(?<year>[0-9?]{4})$/,
];

/** What was typed can't be changed to PGN. The message says why, and what to write; the name of the value goes before it. */
export class Unreadable extends Complaint {}

/** @type {(text: string) => string} `Jörg Müller` becomes `Joerg Mueller`, `José` becomes `Jose`; an ASCII name stays as it is */
export function asciiName(text) {
  const letters = [...text.normalize('NFC')];
  const turned = letters.map((letter, at) => written(letter, letters[at - 1] || '', letters[at + 1] || ''));
  if (turned.includes(null)) throw new Unreadable(message('name.letters'));
  const name = turned.join('');
  if (name.length > LONGEST_NAME) throw new Unreadable(message('name.long', { count: name.length, most: LONGEST_NAME }));
  return name;
}

/** @type {(letter: string) => boolean} */
const isUpper = (letter) => /^[\p{Lu}\p{Lt}]$/u.test(letter);

/** @type {(letter: string, before: string, after: string) => string | null} null if nothing is known for it */
function written(letter, before, after) {
  if (letter >= ' ' && letter <= '~' && letter.length === 1) return letter;
  if (letter === '\t' || /^\p{Zs}$/u.test(letter)) return ' ';
  if (/^\p{Cf}$/u.test(letter)) return ''; // it can't be seen: a soft hyphen, a mark of the direction
  if (Object.hasOwn(SIGNS, letter)) return SIGNS[letter];
  const lower = letter.toLowerCase();
  if (Object.hasOwn(WRITTEN, lower)) {
    const pair = WRITTEN[lower];
    if (!isUpper(letter)) return pair;
    const beside = /^\p{L}$/u.test(after) ? after : before;
    return isUpper(beside) ? pair.toUpperCase() : pair[0].toUpperCase() + pair.slice(1);
  }
  const parts = [...letter.normalize('NFKD')].filter((part) => !/^\p{Mn}$/u.test(part));
  const spelt = parts.map((part) => (Object.hasOwn(WRITTEN, part) ? WRITTEN[part] : part)).join('');
  return /^[ -~]*$/.test(spelt) ? spelt : null;
}

/** @type {(text: string) => string} `31.05.2024`, `2024-05-31`, `2024/5/31` are `2024.05.31`; `2024` is `2024.??.??` */
export function pgnDate(text) {
  for (const pattern of PARTS) {
    const match = pattern.exec(text.trim());
    if (match && match.groups) return dateOf(text, match.groups);
  }
  throw new Unreadable(message('date.unreadable', { text: `'${printable(text)}'` }));
}

/** @type {(date: Date) => string} the day of a Date, as PGN has it */
export function dayOf(date) {
  return [date.getFullYear(), date.getMonth() + 1, date.getDate()].map((part) => String(part).padStart(2, '0')).join('.');
}

/** @type {(text: string, parts: { [part: string]: string }) => string} the date with these parts, if there is such a day */
function dateOf(text, { year, month = '?', day = '?' }) {
  const parts = [year, padded(month), padded(day)];
  // A leap year and a long month replace unknown ones.
  const [ofYear, ofMonth, ofDay] = parts.map((part, at) => (/^[0-9]+$/.test(part) ? Number(part) : [2000, 1, 1][at]));
  const isLeap = ofYear % 4 === 0 && (ofYear % 100 !== 0 || ofYear % 400 === 0);
  const days = [31, isLeap ? 29 : 28, 31, 30, 31, 30, 31, 31, 30, 31, 30, 31];
  const isOne = ofYear >= 1 && ofMonth >= 1 && ofMonth <= 12 && ofDay >= 1 && ofDay <= days[ofMonth - 1];
  if (!isOne) throw new Unreadable(message('date.not_in_calendar', { text: `'${printable(text)}'` }));
  return parts.join('.');
}

/** @type {(part: string) => string} a month or a day, as two characters */
const padded = (part) => (part === '?' ? '??' : part.padStart(2, '0'));

export const ROUND = 'round'; // its PGN has the games of all boards
const LONGEST_FILE = 60; // characters
const RESERVED = /^(?:con|prn|aux|nul|com[0-9]|lpt[0-9]|round)$/i; // names that Windows reserves, and ours

/** @type {(typed: string) => string} what every file system takes: letters, digits, spaces, and some signs inside */
export function fileName(typed) {
  const letters = typed.normalize('NFKC').replace(/[^\p{L}\p{M}\p{N} ,'&()._-]/gu, '-').replace(/\s+/gu, ' ');
  const trimmed = [...letters].slice(0, LONGEST_FILE).join('').replace(/^[ .,-]+|[ .,-]+$/g, '');
  if (!trimmed) return 'game';
  return RESERVED.test(trimmed.split('.')[0]) ? `${trimmed}-game` : trimmed;
}

/** @type {(typed: string, taken: string[]) => string} or with the first number after it that is free; capitals make no difference */
export function freeName(typed, taken) {
  const name = fileName(typed);
  const others = new Set([...taken].map((one) => one.toLowerCase()));
  let free = name;
  for (let number = 2; others.has(free.toLowerCase()); number += 1) free = `${name}-${number}`;
  return free;
}

/** @type {(name: string, number: number) => string} `game.other.times`, `game.other-2.times` */
export const otherName = (name, number) => name.replace(/times$/, number === 1 ? 'other.times' : `other-${number}.times`);

/** @type {(white: string, black: string) => string} both players' names in one: `Anna - Ben`; empty if neither is known */
export const nameOfPlayers = (white, black) => (white || black ? `${white || 'White'} - ${black || 'Black'}` : '');
