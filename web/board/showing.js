// The answers of the program wait until the bytes that came with them are kept; then they are shown, in their order.

import { BEGIN } from '../child/attended.js';
import { lineOf } from '../child/report.js';

/** @typedef {{ number: number, mark: number, entry: Entry | null, answer: Answer, isRead: boolean }} Pending until `mark` bytes are kept */

export class Showing {
  /** @param {Session} session */
  constructor(session) {
    this.session = session;
    this.epoch = 0; // how often the lines were heard from the first one on
    this.lines = /** @type {string[]} */ ([]);
    this.heard = 0; // lines of this epoch
    this.kept = 0; // bytes that may be shown
    this.known = 0; // bytes whose lines are heard again when the game is read anew
    this.shown = 0; // the last entry whose answer was shown
    this.pending = /** @type {Pending[]} */ ([]);
    this.isShowing = false;
    /** @type {{ number: number, done: (nothing?: unknown) => void }[]} */
    this.waiting = []; // those who wait until an entry's answer is shown
    this.texts = /** @type {((text: Uint8Array | null) => void)[]} */ ([]); // those who wait for the text of the game
  }

  /** @type {(size: number) => void} a capture of this size is kept, and its answers are still to come */
  take(size) {
    this.kept = size;
    this.known = size;
  }

  /** A process reads the capture anew: nobody answers those who wait for the text. */
  forget() {
    this.lines = [];
    this.pending = [];
    this.texts.splice(0).forEach((done) => done(null));
  }

  close() {
    this.waiting.splice(0).forEach(({ done }) => done());
    this.forget();
  }

  /** @type {(pending: Pending) => void} */
  add(pending) {
    this.pending.push(pending);
    this.show();
  }

  /** @type {(count: number) => void} so many bytes more are kept */
  isKept(count) {
    this.kept += count;
    this.show();
  }

  show() {
    if (this.isShowing) return;
    this.isShowing = true;
    while (this.pending.length > 0 && this.pending[0].mark <= this.kept && !this.session.guard.ended) {
      const { number, mark, entry, answer, isRead } = /** @type {Pending} */ (this.pending.shift());
      for (const line of answer.report) this.lines.push(line);
      this.known = Math.max(this.known, mark);
      const isBegun = !entry || entry.word === BEGIN;
      this.session.takes(entry, answer, isBegun || (answer.report.length > 0 && isRead));
      if (answer.game) this.texts.splice(0, 1)[0](answer.game);
      this.shown = Math.max(this.shown, number);
    }
    this.isShowing = false;
    const seen = this.waiting.filter(({ number }) => this.isShown(number));
    this.waiting = this.waiting.filter((one) => !seen.includes(one));
    seen.forEach(({ done }) => done());
  }

  /** The lines that weren't heard, as long as none is heard again. */
  *unheard() {
    const { epoch } = this;
    while (this.heard < this.lines.length && epoch === this.epoch && !this.session.guard.ended) {
      const line = lineOf(this.lines[this.heard]);
      this.heard += 1;
      if (line) yield line;
    }
  }

  /** @type {(number: number) => boolean} whether the answers to so many entries are shown, and no line is to be heard again */
  isShown(number) {
    return this.shown >= number && this.pending.every(({ entry }) => entry !== null);
  }

  /** @type {(number: number) => Promise<unknown>} ends when the answers to so many entries are shown */
  until(number) {
    if (this.isShown(number) || this.session.guard.ended) return Promise.resolve();
    return new Promise((done) => {
      this.waiting.push({ number, done });
    });
  }
}
