// What a board sent: in memory, and in the database before any of it is reported. If it can't be kept, it waits in memory, is reported all
// the same, and is tried again each second; the state says so. If the database was lost meanwhile, all that it lacks is put into it again.
// The program reads no more than LARGEST.

import { DUMP_ID, DUMP_SIZE, joined, same } from '../line/protocol.js';
import { message } from '../../live/show/page/message.js';

export const LARGEST = 64 * 1024 * 1024; // bytes that the program reads at most
const BEHIND = 1024 * 1024; // bytes for what comes behind a game, and for what `recover` puts into it
export const MOST = LARGEST - BEHIND; // bytes that a game may have
const LOOKED_BACK = 65536; // bytes that are searched for the last dump

/** @type {(size: number, end: number) => boolean} whether half of the room behind a game with so many bytes is taken */
export const isLong = (size, end) => 2 * (size - end) > LARGEST - end;

/** Where the last dump begins in the last bytes of a capture; where these begin, if no dump is there.
 * @type {(bytes: Uint8Array, end: number) => number} */
function lastDump(bytes, end) {
  const from = Math.max(end, bytes.length - LOOKED_BACK);
  for (let at = bytes.length - 3; at >= from; at -= 1) {
    if (bytes[at] === DUMP_ID && bytes[at + 1] === 0 && bytes[at + 2] === DUMP_SIZE) return at;
  }
  return from;
}

/** Which bytes of a capture go if it gets long, [from, to]: those behind the game, up to the last dump.
 * @type {(bytes: Uint8Array, end: number) => [from: number, to: number]} */
export const needless = (bytes, end) => [end, lastDump(bytes, end)];

const LONG = 1 << 20; // bytes; a longer capture is one chunk, since a database takes long for many

/** @type {(content: Uint8Array, now: number) => Chunk[]} chunks as the database keeps them */
export function spread(content, now) {
  if (content.length > LONG) return [{ number: 0, at: now, bytes: content.slice() }];
  const starts = [0];
  for (let at = 1; at + 2 < content.length; at += 1) {
    if (content[at] === DUMP_ID && content[at + 1] === 0 && content[at + 2] === DUMP_SIZE) starts.push(at);
  }
  return starts.map((start, number) => {
    const bytes = content.slice(start, number + 1 < starts.length ? starts[number + 1] : content.length);
    return { number, at: now - (starts.length - 1 - number), bytes };
  });
}

/** A capture whose beginning of this size has more after it in `longer`: all of that, and then the rest of the capture. Null if the other
 * one begins otherwise, or has no more.
 * @type {(capture: Uint8Array, size: number, longer: Uint8Array) => Uint8Array | null} */
export function withMore(capture, size, longer) {
  /** @type {(whole: Uint8Array, part: Uint8Array) => boolean} */
  const begins = (whole, part) => whole.length >= part.length && same(whole.subarray(0, part.length), part);
  if (longer.length <= size || !begins(longer, capture.subarray(0, size)) || begins(capture, longer)) return null;
  return joined(longer, capture.subarray(size));
}

export const DISK_FULL = message('state.disk_full'); // the disk has no room
const NOT_WRITTEN = message('state.not_written'); // it can't be written for another reason

/** @typedef {{ kept: (count: number) => void, changed: () => void }} Hears */

/** @type {(error: Error) => Words} what keeps something from being written, as the state names it */
export const troubleOf = (error) => (error && error.name === 'QuotaExceededError' ? DISK_FULL : NOT_WRITTEN);

const NOBODY = { kept: () => {}, changed: () => {} }; // hears before it is said who does

/** @type {(chunks: Chunk[]) => number} */
const lengthOf = (chunks) => chunks.reduce((sum, { bytes }) => sum + bytes.length, 0);

/** What a capture has by now. It only grows, so these bytes stay what they are. */
export class Front {
  /** @param {Capture} capture */
  constructor(capture) {
    this.capture = capture;
    this.length = capture.size;
  }

  /** @type {(from: number, to: number) => Uint8Array} its bytes from one offset to another, to be read */
  subarray(from, to) {
    return this.capture.view(Math.min(to, this.length)).subarray(from);
  }

  /** Whether it begins with this.
   * @param {unknown} before @returns {before is Front} */
  goesOn(before) {
    return before instanceof Front && before.capture === this.capture && before.length <= this.length;
  }
}

export class Capture {
  /** It begins with these chunks, which are kept.
   * @param {Database} database @param {number} game @param {Chunk[]} [chunks] */
  constructor(database, game, chunks = []) {
    this.database = database;
    this.game = game;
    /** @type {Hears} */
    this.hears = NOBODY;
    this.content = new Uint8Array(0); // with room behind it
    this.size = 0;
    this.marks = /** @type {[offset: number, at: number][]} */ ([]); // where each chunk begins, and when it came
    chunks.forEach((chunk) => this.take(chunk));
    this.epoch = database.epoch; // of the database in which all is kept but what waits
    this.waiting = /** @type {Chunk[]} */ ([]); // chunks that aren't kept yet
    this.told = 0; // how many of them were reported all the same
    this.writing = /** @type {Promise<void> | null} */ (null);
    this.trouble = /** @type {Words} */ (''); // why nothing can be kept
    this.why = '';
  }

  /** @type {(database: Database, game: number) => Promise<Capture>} what the database has of a game */
  static async read(database, game) {
    const capture = new Capture(database, game);
    for await (const chunks of database.chunks(game)) chunks.forEach((chunk) => capture.take(chunk));
    return capture;
  }

  /** `kept(count)` gets how many bytes more are kept, from now on; `changed()` is called when nothing can be kept any more, or again. All
   * that has come by now is known.
   * @type {(hears: Hears) => void} */
  hearBy(hears) {
    this.hears = hears;
    this.told = this.waiting.length;
  }

  /** @type {(chunk: Chunk) => void} it goes on with this chunk */
  take({ at, bytes }) {
    const size = this.size + bytes.length;
    if (size > this.content.length) {
      const larger = new Uint8Array(Math.max(size, Math.min(2 * this.content.length, LARGEST), 4096));
      larger.set(this.view());
      this.content = larger;
    }
    this.content.set(bytes, this.size);
    this.marks.push([this.size, at]);
    this.size = size;
  }

  /** @type {(end?: number) => Uint8Array} all that came, or this many bytes */
  bytes(end = this.size) {
    return this.view(end).slice();
  }

  /** @type {(end?: number) => Uint8Array} the same, to be read, and neither changed nor handed on: it is no copy */
  view(end = this.size) {
    return this.content.subarray(0, Math.min(end, this.size));
  }

  /** @type {(bytes: Uint8Array, at: number) => void} the board has sent this, or somebody has added it */
  append(bytes, at) {
    const chunk = { number: this.marks.length, at, bytes };
    this.take(chunk);
    this.waiting.push(chunk);
    this.write();
  }

  /** Keeps what waits. The promise ends when nothing is being written. */
  write() {
    if (!this.writing) {
      this.writing = this.writeAll().finally(() => {
        this.writing = null;
      });
    }
    return this.writing;
  }

  async writeAll() {
    while (this.waiting.length > 0 || this.isLost) {
      let part;
      try {
        if (this.isLost) await this.lookAgain();
        part = this.waiting.slice();
        if (part.length > 0) await this.database.append(this.game, part);
      } catch (error) {
        this.fails(error);
        return;
      }
      this.waiting.splice(0, part.length);
      const news = part.slice(this.told);
      this.told = Math.max(0, this.told - part.length);
      if (news.length > 0) this.hears.kept(lengthOf(news));
    }
    if (this.trouble) {
      this.trouble = '';
      this.hears.changed();
    }
  }

  /** Whether something may be in memory alone. */
  get isUnkept() {
    return this.waiting.length > 0 || Boolean(this.trouble) || this.isLost;
  }

  /** Whether the database was closed since all was kept in it. */
  get isLost() {
    return !this.database.isOpen || this.epoch !== this.database.epoch;
  }

  /** Opens the database again. If it lacks something that was kept, all waits to be kept once more. */
  async lookAgain() {
    const count = await this.database.count(this.game);
    const { epoch } = this.database;
    const kept = this.marks.length - this.waiting.length;
    if (count < kept) {
      this.waiting = this.chunks();
      this.told += kept;
    }
    this.epoch = epoch;
  }

  /** @type {() => Chunk[]} all that came, as the database keeps it */
  chunks() {
    const { marks } = this;
    return marks.map(([offset, at], number) => {
      const end = number + 1 < marks.length ? marks[number + 1][0] : this.size;
      return { number, at, bytes: this.content.slice(offset, end) };
    });
  }

  /** @type {(error: Error) => void} it can't be kept: it stays in memory, and is reported */
  fails(error) {
    const news = this.waiting.slice(this.told);
    this.told = this.waiting.length;
    const isNew = !this.trouble;
    this.trouble = this.trouble || troubleOf(error);
    this.why = error && error.message ? error.message : String(error);
    if (isNew) this.hears.changed();
    if (news.length > 0) this.hears.kept(lengthOf(news));
  }
}
