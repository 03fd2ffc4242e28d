// Has the program attend the board of a game: it is told what happens, and decides. What it gives to the game is kept before
// anything of the answer is shown; what it sends to the board goes out at once.
//
// What it is told has its line in the game's times, with the same time, and in the order in which the program takes it. So a line waits
// until all that was told before is answered, since the game may get bytes then.

import {
  ADDED, AWAY, BEGIN, CAPTURE, GONE, HEARD, KEEP, KEPT, LENT, NUMBER, OPENED, OTHER, TEXT, WAKE, noAnswer,
} from '../child/attended.js';
import { Attendant } from '../child/program.js';
import { ofLive } from '../game/options.js';
import { inParts } from '../game/times.js';
import { Showing } from './showing.js';

/** @typedef {Entry & { number: number, isAnswered?: boolean, owner?: string }} Told in its order; `owner` is whose board has sent what is held
 * @typedef {Told & { given: Uint8Array }} Sent what the board has sent
 * @typedef {{ sent: Uint8Array | null, work: () => unknown }} Paused */

const MOST_HELD = 1 << 20; // bytes that no game has, as in the program
const PART = 1 << 20; // bytes of a capture that the program gets at a time, with their times
const OPENS = 0.2; // seconds in which a session that is begun may get its line
const OF_THE_PAST = [KEPT, CAPTURE, BEGIN, AWAY]; // with the answers to these no game gets bytes
const UNLINED = [...OF_THE_PAST, NUMBER, LENT, WAKE, TEXT, HEARD]; // these have no line in the times, or have it otherwise

/** @type {(text: string) => Uint8Array} */
const textBytes = (text) => new TextEncoder().encode(text);

export class Attending {
  /** @param {Session} session */
  constructor(session) {
    this.session = session;
    this.guard = session.guard;
    this.showing = new Showing(session);
    this.attendant = /** @type {Attendant | null} */ (null);
    this.told = 0; // entries
    this.unanswered = /** @type {Told[]} */ ([]);
    this.held = /** @type {Sent[]} */ ([]); // what the board has sent and no game has
    this.paused = /** @type {Paused[] | null} */ (null); // what happens while nothing is told
    // What `take` sets.
    /** @type {Capture} */
    this.capture;
    /** @type {Times} */
    this.times;
    this.isAnew = true;
    this.isHistory = false;
    this.guard.opened(() => this.close());
  }

  /** @type {(capture: Capture, times: Times) => void} attends the board of this capture from now on; all that it has may be shown */
  take(capture, times) {
    this.noteLines(true);
    this.unanswered = [];
    this.capture = capture;
    this.times = times;
    this.showing.take(capture.size);
    this.isAnew = true;
    this.isHistory = this.attendant === null || times.lines.before !== ''; // its bytes came in the calls before; else the board has just shown them
  }

  /** The game has other options now: the capture is read anew, with the next `begin`. */
  readAnew() {
    this.isAnew = true;
    this.showing.known = this.capture.size;
    this.goesOn();
  }

  /** The game has other tags now, or its board another number: another process reads what is kept, and no line of it is heard again. */
  takeTags() {
    this.goesOn();
    this.attend();
  }

  /** The next process goes on with what is kept: nobody was away but since the last of it. */
  goesOn() {
    this.noteLines(true);
    this.unanswered = [];
    this.times.beginAgain();
    this.isHistory = true;
  }

  close() {
    if (this.attendant) this.attendant.leave();
    this.showing.close();
  }

  /** All lines are heard again. */
  begin() {
    const { showing } = this;
    showing.epoch += 1;
    showing.heard = 0;
    if (this.isAnew) {
      this.attend();
      return;
    }
    showing.pending.push({ number: 0, mark: 0, entry: null, answer: noAnswer(), isRead: true });
    this.guard.call(() => Promise.resolve().then(() => showing.show())); // whoever wants them again goes on first
  }

  /** A process reads the capture, and attends the board from now on. */
  attend() {
    this.isAnew = false;
    const before = this.attendant;
    if (before) before.leave();
    const { held, session } = this;
    const hears = {
      told: (/** @type {Entry} */ entry) => this.hasTold(/** @type {Told} */ (entry)),
      answered: (/** @type {Entry} */ entry, /** @type {Answer} */ answer) => this.answered(/** @type {Told} */ (entry), answer),
      wake: () => this.tell(WAKE),
    };
    const { began, line } = this.times.lines;
    const attendant = new Attendant(session.hall.program, this.guard, ofLive(session.options), hears, { began });
    this.attendant = attendant;
    this.held = [];
    this.showing.forget();
    this.tellPast(attendant);
    if (before && line.length === 0) attendant.send(GONE);
    else if (line.length === 0) this.guard.after(OPENS, () => session.cable.isOpen || this.tell(GONE));
    held.forEach(({ given, at }) => attendant.send(HEARD, given, at));
  }

  /** @type {(attendant: Attendant) => void} what is there already; nothing else keeps these bytes, as a function of `attend` would */
  tellPast(attendant) {
    const { number } = this.session.cable;
    const { began, before, begun } = this.times.lines;
    const sent = this.capture.view();
    for (const { text, bytes } of this.isHistory && sent.length > 0 ? inParts(before, sent, PART) : []) {
      if (text) attendant.send(KEPT, textBytes(text));
      attendant.send(CAPTURE, bytes);
    }
    /** @type {(begun: [what: string, count: number | null]) => void} */
    const tells = ([what, count]) => attendant.send(what, what === ADDED ? sent : count, began, true);
    /** @type {(begun: [what: string, count: number | null]) => boolean} */
    const isFirst = ([what]) => OF_THE_PAST.includes(what);
    begun.filter(isFirst).forEach(tells);
    if (number) attendant.send(NUMBER, textBytes(number));
    begun.filter((one) => !isFirst(one)).forEach(tells);
  }

  // What it is told.

  /** @type {(word: string, given?: Given, at?: number) => void} this happens */
  tell(word, given = null, at = this.guard.counted()) {
    const work = () => this.tellNow(word, given, at);
    if (this.paused) this.paused.push({ sent: word === HEARD ? /** @type {Uint8Array} */ (given) : null, work });
    else work();
  }

  /** @type {(word: string, given?: Given, at?: number) => void} the same, even while nothing else is told */
  tellNow(word, given = null, at = this.guard.counted()) {
    /** @type {Attendant} */ (this.attendant).tell(word, given, at);
  }

  /** The text of the game, as bytes, of all that the program was told by now; null if another process attends the board before that is
   * answered, or none any more.
   * @type {() => Promise<Uint8Array | null>} */
  text() {
    const { texts } = this.showing;
    return new Promise((done) => {
      texts.push(done);
      this.inTurn(() => texts.includes(done) && this.tellNow(TEXT));
    });
  }

  /** @type {(work: () => unknown) => void} does this now, or when what happens is told again */
  inTurn(work) {
    if (this.paused) this.paused.push({ sent: null, work });
    else work();
  }

  /** Nothing is told until `goOn`. */
  pause() {
    this.paused = this.paused || [];
  }

  goOn() {
    const { paused } = this;
    this.paused = null;
    if (paused) this.guard.call(() => paused.forEach(({ work }) => work()));
  }

  /** @type {(entry: Told) => void} */
  hasTold(entry) {
    this.told += 1;
    entry.number = this.told;
    if (entry.word === HEARD) this.held.push(/** @type {Sent} */ (entry));
    this.unanswered.push(Object.assign(entry, { isNoted: entry.isNoted || UNLINED.includes(entry.word) }));
    this.noteLines();
  }

  /** @type {(areAll?: boolean) => void} up to the first entry that may bring bytes to the game; or all, since nobody answers any more */
  noteLines(areAll = false) {
    for (const entry of this.unanswered) {
      const { word, given, at } = entry;
      if (!entry.isNoted) this.times.note(word, given instanceof Uint8Array ? given.length : given, at);
      entry.isNoted = true;
      if (!areAll && !OF_THE_PAST.includes(word)) return;
    }
  }

  // What it answers.

  /** @type {(entry: Told, answer: Answer) => void} */
  answered(entry, answer) {
    entry.isAnswered = true;
    this.unanswered.shift();
    if (answer.handling) this.settle(entry, answer);
    this.session.keeps(entry, answer);
    this.noteLines();
    const isRead = !this.unanswered.some(({ word }) => word === CAPTURE); // all of the calls before
    this.showing.add({ number: entry.number, mark: this.capture.size, entry, answer, isRead });
  }

  /** @type {(entry: Told, answer: Answer) => void} what was held comes to the game, is another board's, or is dropped */
  settle({ word }, { handling, other }) {
    /** @type {(one: Sent) => unknown} */
    const isOld = (one) => one.isAnswered && (handling === KEEP || (handling === OTHER && one.owner && one.owner !== other));
    /** @type {(one: Sent) => unknown} */
    const isDropped = (one) => one.isAnswered && !one.owner && (word === OPENED || word === GONE);
    this.held = this.held.filter((one) => !isOld(one) && !isDropped(one));
    if (handling === OTHER) this.held.filter(({ isAnswered }) => isAnswered).forEach((one) => Object.assign(one, { owner: other }));
    let size = this.held.reduce((sum, { given }) => sum + given.length, 0);
    while (size > MOST_HELD) size -= /** @type {Sent} */ (this.held.shift()).given.length;
  }

  /** @type {(number: string) => void} gives what another board has sent to the game that has it, if there is one */
  lend(number) {
    const { held } = this;
    const count = held.length;
    while (held.length > 0 && held[0].isAnswered && this.session.around.lends(number, held[0].given)) held.shift();
    if (held.length < count) this.tell(LENT);
  }

  /** @type {() => Promise<unknown>} ends when the answers to all that was told are shown */
  read() {
    return this.showing.until(this.told);
  }

  /** @type {() => Uint8Array[]} it counts as the game's, unless what came before it was held */
  takeUnanswered() {
    this.noteLines(true);
    const isHeld = this.held.some(({ isAnswered }) => isAnswered);
    const later = (this.paused || []).flatMap(({ sent }) => sent || []);
    const unanswered = isHeld ? [] : [...this.held.map(({ given }) => given), ...later];
    this.held = [];
    this.paused = this.paused && [];
    return unanswered;
  }
}
