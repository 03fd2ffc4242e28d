// Files that the browser saves; and all that the page has of a board in one of them, to be sent in when the board did something odd: a zip
// archive, in which each file is stored as it is (PKWARE's APPNOTE has the format), also with what the page has said.

import { otherName } from '../game/names.js';
import { joined } from '../line/protocol.js';
import { Complaint, message } from '../../live/show/page/message.js';

const [FILE, ENTRY, END] = [0x04034b50, 0x02014b50, 0x06054b50]; // what begins a file, its entry in the list, and the list's end
const VERSION = 20; // that a reader must know
const UTF_8 = 0x0800; // the flag of names that are written so
const STORED = 0;
const POLYNOMIAL = 0xedb88320;
const LARGEST = 0xffffffff;

const TABLE = Uint32Array.from({ length: 256 }, (_, byte) => {
  let rest = byte;
  for (let bit = 0; bit < 8; bit += 1) rest = rest & 1 ? (rest >>> 1) ^ POLYNOMIAL : rest >>> 1;
  return rest;
});

/** @type {(content: Uint8Array) => number} CRC-32 */
export function checksum(content) {
  let state = 0xffffffff;
  for (const byte of content) state = (state >>> 8) ^ TABLE[(state ^ byte) & 0xff];
  return (state ^ 0xffffffff) >>> 0;
}

/** Numbers of two bytes or four, the lowest byte first: [[size, number], ..].
 * @typedef {[size: number, number: number]} Field
 * @type {(...fields: Field[]) => Uint8Array} */
function numbers(...fields) {
  return Uint8Array.from(fields.flatMap(([size, number]) => Array.from({ length: size }, (_, at) => (number >>> (8 * at)) & 0xff)));
}

/** @type {(date: Date) => [time: number, day: number]} as MS-DOS has them: to two seconds, by the clock on the wall */
function stamp(date) {
  const time = (date.getHours() << 11) | (date.getMinutes() << 5) | (date.getSeconds() >> 1);
  return [time, (Math.max(0, date.getFullYear() - 1980) << 9) | ((date.getMonth() + 1) << 5) | date.getDate()];
}

/** @type {(files: { name: string, content: string | Uint8Array }[], date: Date) => Uint8Array} written at this time */
export function zipped(files, date) {
  const [time, day] = stamp(date);
  const parts = /** @type {Uint8Array[]} */ ([]);
  const entries = /** @type {Uint8Array[]} */ ([]);
  let at = 0;
  for (const { name, content } of files) {
    const bytes = typeof content === 'string' ? new TextEncoder().encode(content) : content;
    const letters = new TextEncoder().encode(name);
    /** @type {Field[]} */
    const sizes = [[4, checksum(bytes)], [4, bytes.length], [4, bytes.length], [2, letters.length], [2, 0]];
    /** @type {Field[]} */
    const both = [[2, VERSION], [2, UTF_8], [2, STORED], [2, time], [2, day], ...sizes];
    parts.push(numbers([4, FILE], ...both), letters, bytes);
    entries.push(numbers([4, ENTRY], [2, VERSION], ...both, [2, 0], [2, 0], [2, 0], [4, 0], [4, at]), letters);
    at = parts.reduce((size, part) => size + part.length, 0);
  }
  const list = joined(...entries);
  if (at + list.length > LARGEST) throw new Complaint(message('pack.too_large'));
  const end = numbers([4, END], [2, 0], [2, 0], [2, files.length], [2, files.length], [4, list.length], [4, at], [2, 0]);
  return joined(...parts, list, end);
}

const MOST_LINES = 10000; // lines

/** @type {(number: number) => string} */
const two = (number) => String(number).padStart(2, '0');

/** @type {(date: Date) => string} `2026-11-27 20:41:12`, by the clock on the wall */
export function stamped(date) {
  const day = [date.getFullYear(), two(date.getMonth() + 1), two(date.getDate())].join('-');
  return `${day} ${[date.getHours(), date.getMinutes(), date.getSeconds()].map(two).join(':')}`;
}

export class Log {
  constructor() {
    this.lines = /** @type {{ number: number | null, text: string }[]} */ ([]); // the number is null for what is said of all boards
  }

  /** @type {(text: Words, number: number | null) => void} */
  add(text, number) {
    this.lines.push({ number, text: `${stamped(new Date())}  ${text.replace(/\s+/g, ' ')}\n` });
    if (this.lines.length > MOST_LINES) this.lines.shift();
  }

  /** @type {(number: number) => string} what was said of a board, and of all */
  of(number) {
    return this.lines.filter((line) => line.number === null || line.number === number).map(({ text }) => text).join('');
  }
}

/** @typedef {{ name: string, content: string | Uint8Array, has: Words }} File with what it has, for whoever opens the archive
 * @typedef {[name: string, content: string | Uint8Array, has: Words]} Part */

const TIMES = message('packed.times');

/** @type {(game: Finished, before: Before[], others: string[]) => File[]} in a folder of its name; those without content aren't there */
function filesOf({ pgn, bytes, times, texts, ...record }, before, others) {
  const { name } = record;
  /** @type {Part[]} */
  const kept = before.flatMap((old, at) => [
    [`${name}.before-${at + 1}.dgt`, old.bytes, message('packed.before_back')],
    [`${name}.before-${at + 1}.times`, old.times, TIMES],
  ]);
  /** @type {Part[]} */
  const beside = others.map((text, at) => [otherName(`${name}.times`, at + 1), text, message('packed.other_times')]);
  /** @type {Part[]} */
  const files = [
    [`${name}.dgt`, bytes, message('packed.capture')],
    [`${name}.times`, times, TIMES],
    [`${name}.pgn`, pgn, message('packed.pgn')],
    [`${name}.json`, `${JSON.stringify(record, null, 1)}\n`, message('packed.record')],
    ...kept,
    ...beside,
  ];
  const there = files.filter(([, content]) => content && content.length > 0);
  return there.map(([file, content, has]) => ({ name: `${name}/${file}`, content, has }));
}

/** @type {(id: number, files: File[], now: Date) => string} what is in the archive, for whoever opens it */
function readMe(id, files, now) {
  const width = Math.max(...files.map(({ name }) => name.length));
  const lines = files.map(({ name, content, has }) => `${name.padEnd(width)}  ${String(content.length).padStart(9)}  ${has}`);
  return [
    message('pack.title_of_a_board', { board: id, now: stamped(now) }),
    message('pack.has_names'),
    '',
    ...lines,
    '',
    message('pack.saved_in', { browser: navigator.userAgent }),
    message('pack.to_see_a_capture', { name: files[0].name }),
    '',
  ].join('\n');
}

/** The games of a board, what is kept beside them, and what the page has said, in an archive.
 * @type {(database: Database, seat: Seat, log: Log) => Promise<Uint8Array>} */
export async function allOf(database, seat, log) {
  const now = new Date();
  const pgn = await seat.text();
  const games = [...seat.finished, { ...seat.game, pgn, bytes: seat.bytes(), times: seat.recording.times.all }];
  const kept = await database.before().catch(() => []);
  const files = [];
  for (const game of games) {
    const others = await database.otherTimes(game.id).catch(() => []);
    files.push(...filesOf(game, kept.filter((old) => old.game === game.id), others));
  }
  files.push({ name: 'messages.log', content: log.of(seat.id), has: message('packed.page') });
  return zipped([{ name: 'README.txt', content: readMe(seat.id, files, now) }, ...files], now);
}

const APART = 125; // milliseconds between two files: ten take more than a second
const READ_WITHIN = 60000; // milliseconds in which a file is read

const waiting = /** @type {{ name: string, blob: Blob }[]} */ ([]);
let isGiving = false;

/** @type {(name: string, content: string | Uint8Array, kind: string) => void} has the browser save this as a file */
export function save(name, content, kind) {
  waiting.push({ name, blob: new Blob([content], { type: kind }) });
  if (!isGiving) giveNext();
}

function giveNext() {
  const next = waiting.shift();
  isGiving = next !== undefined;
  if (!next) return;
  const { name, blob } = next;
  const link = document.createElement('a');
  link.href = URL.createObjectURL(blob);
  link.download = name;
  link.click();
  setTimeout(() => URL.revokeObjectURL(link.href), READ_WITHIN);
  setTimeout(giveNext, APART);
}
