// NAME.times beside a capture: in memory, and in the database behind the bytes of which it tells. Whatever goes wrong with it
// costs times, and never a move.

import { ADDED, ASKED, AWAY, BEGIN, HEARD, OVER } from '../child/attended.js';
import { otherName } from '../game/names.js';
import {
  HEADED, adding, begunWith, cut, heading, isOf, kept, lineAfter, lines, toldOf, toldOfMissing, toldOfOther, toldOfTrouble,
} from '../game/times.js';
import { Complaint, isSame, message } from '../../live/show/page/message.js';
import { LARGEST } from './capture.js';

const GATHERED = 0.2; // seconds in which events are gathered; the line of a move is on the screen by then
const OFTEN = 1.0; // the same of those that come again and again
const AGAIN = 1.0; // seconds until what couldn't be kept is tried again
const MOST_WAIT = 1000; // events that wait for the first bytes of a capture
const DUMP = 67; // bytes of a capture that the heading waits for

/** @type {(what: string) => [what: string, count: null]} */
const alone = (what) => [what, null];

/** @type {(rows: Row[]) => string} what the database has of a game's times, in one text */
export const textOf = (rows) => rows.map(({ text }) => text).join('');

/** The lines in memory, and what has none yet. */
class Lines {
  /** @param {Game} game @param {Capture} capture */
  constructor(game, capture) {
    this.game = game;
    this.capture = capture;
    this.text = ''; // all lines
    this.edition = 0; // how often lines that may be kept were changed
    this.events = /** @type {Noted[]} */ ([]); // without lines yet, by the clock's own time
    this.from = 0; // when the call began to which the first of them belongs, by that clock
    this.began = 0; // when this call began
    /** @type {[what: string, count: number | null][]} */
    this.begun = []; // what was noted then
    this.before = ''; // all lines from before that
    this.last = 0; // when something was noted last
    this.line = /** @type {string[]} */ ([]); // what was last noted of the cable
  }

  /** @type {(now: number, away: number | null, size: number, added: number, words: string[]) => void} as `Times` says it */
  begin(now, away, size, added, words) {
    this.before = this.text;
    this.began = Math.max(now, this.last);
    this.last = this.began;
    this.begun = [[BEGIN, size]];
    if (away !== null) this.begun.push([AWAY, away]);
    this.begun.push(...this.line.map(alone));
    if (added > 0) this.begun.push([ADDED, added]);
    this.begun.push(...words.map(alone));
    for (const [what, count] of this.begun) this.events.push([this.began, what, count]);
  }

  /** @type {(what: string, count: number | null, at: number) => void} */
  note(what, count, at) {
    this.last = Math.max(at, this.last);
    if (count === null) this.line = lineAfter(this.line, what);
    this.events.push([this.last, what, count]);
  }

  /** Makes lines of what has happened; before the capture has a dump only if they are wanted. Throws an Error if there is no room.
   * @type {(areWanted: boolean) => void} */
  gather(areWanted) {
    const isTooEarly = !this.text && this.capture.size < (areWanted ? 1 : DUMP) && this.events.length < MOST_WAIT;
    if (this.events.length === 0 || isTooEarly) return;
    if (!this.text) this.text = heading(this.game.goneBack || 0, this.capture.bytes(HEADED));
    const more = lines(this.events, this.from);
    for (const [at, what] of this.events) if (what === BEGIN) this.from = at;
    this.events = [];
    if (this.text.length + more.length >= LARGEST) throw new Complaint(message('times.full'));
    this.text += more;
  }
}

export class Times {
  /** Those of a game's capture. Nothing is kept before goOn().
   * @param {GameRecord} record @param {Guard} guard @param {Game} game @param {Capture} capture */
  constructor(record, guard, game, capture) {
    this.record = record;
    this.guard = guard;
    this.lines = new Lines(game, capture);
    this.size = 0; // characters of them that are kept
    this.number = 0; // of the next row in the database
    this.isAnew = false; // whether that takes the place of all rows
    this.other = ''; // what isn't of this capture, until it is kept beside
    this.epoch = record.database.epoch; // of the database that has the rows
    this.timer = /** @type {Timer | null} */ (null);
    this.writing = /** @type {Promise<void> | null} */ (null);
    this.isHeld = true; // whether nothing is kept now
    this.trouble = /** @type {Words} */ (''); // why it can't be kept
  }

  get name() {
    return `${this.record.name}.times`;
  }

  // What is there when a game is opened.

  /** @type {(rows: Row[] | null, mayLack: boolean) => void} a call begins behind these rows; null if they can't be read */
  open(rows, mayLack) {
    try {
      this.begin(this.look(rows));
      this.isAnew = this.isAnew || mayLack;
      this.goOn();
    } catch (error) {
      this.record.says(toldOfTrouble(this.name, error.message || String(error))); // what is there stays as it is
      this.begin();
    }
  }

  /** @type {(rows: Row[] | null) => number | null} for how many milliseconds nobody was there; null if that isn't known */
  look(rows) {
    if (rows === null) throw new Complaint(message('keep.unreadable'));
    const text = textOf(rows);
    const found = kept(text);
    const { capture } = this.lines;
    if (!text) {
      this.isAnew = rows.length > 0;
      if (capture.size > 0) this.record.says(toldOfMissing(this.name, capture.size));
      return null;
    }
    if (!isOf(found, capture.bytes(found ? found.size : 0))) {
      this.isAnew = true;
      this.other = text;
      this.record.says(toldOfOther(found, this.name, otherName(this.name, 1)));
      return null;
    }
    toldOf(found, this.name, text.length, `${this.record.name}.dgt`, capture.size).forEach((told) => this.record.says(told));
    this.lines.text = text.slice(0, found.ends);
    this.size = found.ends;
    this.isAnew = found.ends < text.length;
    const last = rows[rows.length - 1];
    this.number = last.number + 1;
    return Date.now() >= last.at ? Date.now() - last.at : null;
  }

  // What happens.

  /** A call begins, or the game goes on from another capture. It has so many bytes, and then so many more that are added; and then these
   * words are noted. The program that attends the board is told the same.
   * @type {(away?: number | null, size?: number, added?: number, words?: string[]) => void} */
  begin(away = null, size = this.lines.capture.size, added = 0, words = []) {
    this.gather(true);
    this.lines.begin(this.guard.counted(), away, size, added, words);
    this.writeSoon();
  }

  /** Another program attends the board from now on: for it a call begins. */
  beginAgain() {
    this.begin(Math.max(0, this.guard.counted() - this.lines.last));
  }

  /** @type {(what: string, count?: number | null, at?: number) => void} this has happened then, by the clock that counts on */
  note(what, count = null, at = this.guard.counted()) {
    this.lines.note(what, count, at);
    this.writeSoon(what === HEARD || what === ASKED ? OFTEN : GATHERED);
  }

  /** The game isn't over any more, or ends elsewhere. */
  isNotOver() {
    const { lines: all } = this;
    this.gather();
    if (!all.text) return;
    all.text = cut(all.text, /** @type {Found} */ (kept(all.text)), all.capture.size, all.capture.bytes(HEADED));
    all.edition += 1;
    this.isAnew = true;
    this.writeSoon();
  }

  // When the capture becomes another one.

  /** Those of a new game; or of this game's new capture: then nobody was away. The board has shown what it has.
   * @type {(game: Game, capture: Capture, away?: number | null, words?: string[]) => Times} */
  next(game, capture, away = null, words = []) {
    const times = this.of(game, capture);
    times.begin(away, 0, capture.size, words);
    return times;
  }

  /** Those of a new capture that begins with so many bytes of this one, or of the one with these lines; then come those that somebody has
   * added, if any; and then these words are noted.
   * @type {(size: number, game: Game, capture: Capture, added?: number, text?: string, words?: string[]) => Times} */
  upTo(size, game, capture, added = 0, text = this.all, words = []) {
    const times = this.of(game, capture);
    times.lines.text = begunWith(text, game.goneBack || 0, size, capture.bytes(Math.min(HEADED, size)));
    /** @type {Counted[]} */
    const over = game.end === null ? [] : [[OVER, game.end]];
    /** @type {Counted} */
    const begin = [BEGIN, capture.size];
    const [[, begins], ...events] = added > 0 ? adding(size, added, capture.size) : [begin, ...over];
    times.begin(0, begins, 0, words);
    if (events.length === 0) return times;
    events.forEach(([what, count]) => times.note(what, count));
    times.begin(0);
    return times;
  }

  /** @type {(game: Game, capture: Capture) => Times} */
  of(game, capture) {
    const times = new Times(this.record, this.guard, game, capture);
    times.lines.line = this.lines.line;
    times.isAnew = true;
    return times;
  }

  // How they are kept.

  /** All lines. */
  get all() {
    this.gather();
    return this.lines.text;
  }

  gather(areWanted = false) {
    try {
      this.lines.gather(areWanted);
    } catch (error) {
      this.fails(error);
    }
  }

  /** What another call goes on behind, if the database may lack some of it. */
  get rows() {
    return this.all ? [this.row] : [];
  }

  /** All lines as a row, for the transaction that keeps the capture too. */
  get row() {
    return { number: 0, at: Date.now(), text: this.all };
  }

  /** @type {(row: Row, before: Times) => void} that row is kept, and what was noted meanwhile goes on here */
  goOnFrom(row, before) {
    this.size = row.text.length;
    this.number = 1;
    this.isAnew = false;
    this.epoch = this.record.database.epoch;
    this.lines.events.push(...before.lines.events);
    this.lines.line = before.lines.line;
    this.goOn();
  }

  /** Nothing is kept now. The promise ends when nothing is being written. */
  async hold() {
    this.isHeld = true;
    while (this.writing) await this.writing;
  }

  goOn() {
    this.isHeld = false;
    this.writeSoon();
  }

  /** @type {(seconds?: number) => void} */
  writeSoon(seconds = GATHERED) {
    if (this.isHeld || (this.timer && this.timer.when <= this.guard.now() + seconds)) return;
    if (this.timer) this.timer.cancel();
    this.timer = this.guard.after(seconds, () => {
      this.timer = null;
      return this.write();
    });
  }

  /** Keeps what has happened so far. The promise ends in any case. */
  async write() {
    while (this.writing) await this.writing;
    if (this.isHeld) return;
    const done = () => {
      this.writing = null;
    };
    this.writing = this.writeNow().catch((error) => this.fails(error)).finally(done);
    await this.writing;
  }

  async writeNow() {
    this.gather();
    const { capture, edition, game, text } = this.lines;
    if (text.length === this.size && !this.isAnew) return;
    await Promise.all([capture.write(), this.record.keeping]); // of which it tells
    if (capture.trouble || this.record.isUnkept) {
      this.writeSoon(AGAIN); // the page has said why
      return;
    }
    await this.record.database.connection();
    const { epoch } = this.record.database;
    const isAll = this.isAnew || epoch !== this.epoch; // another database lacks the rows
    if (edition === this.lines.edition) {
      const row = { number: isAll ? 0 : this.number, at: Date.now(), text: text.slice(isAll ? 0 : this.size) };
      await this.record.database.appendTimes(game.id, row, isAll, this.other);
      this.other = '';
      this.epoch = epoch;
      this.number = row.number + 1;
      this.size = text.length;
      if (edition === this.lines.edition) this.isAnew = false;
      if (this.trouble) this.record.says(message('times.kept_again', { path: this.name }));
      this.trouble = '';
    }
    if (this.lines.events.length > 0 || this.isAnew) this.writeSoon();
  }

  /** @type {(error: Error) => void} it can't be kept: it waits in memory */
  fails(error) {
    const why = error.message || String(error);
    if (!isSame(why, this.trouble)) this.record.says(toldOfTrouble(this.name, why));
    this.trouble = why;
    this.writeSoon(AGAIN);
  }

  /** Keeps what has happened, and nothing further. */
  async close() {
    await this.write();
    if (this.timer) this.timer.cancel();
    this.isHeld = true;
  }
}
