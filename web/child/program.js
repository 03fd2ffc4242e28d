// Calls of the program, which runs in the worker; and a process of it that attends a board: that is told what happens and when, and is woken
// when it has asked for that.

import { suspends } from '../../hosts/process.mjs';
import { Complaint, Message, message } from '../../live/show/page/message.js';
import { STOPPED, entryOf } from './attended.js';

/** The program can't be run, or has ended as it shouldn't. */
export class ProgramError extends Complaint {}

const LARGE = 4 << 20; // bytes that a call isn't given beside others
const PART = 1 << 20; // bytes of a large input that are copied at a time

// A module with a memory and a table of 64-bit addresses, as the program has them.
const WIDE = Uint8Array.of(0, 0x61, 0x73, 0x6d, 1, 0, 0, 0, 4, 4, 1, 0x70, 4, 0, 5, 3, 1, 4, 0);

/** @type {() => Words} what this browser lacks to run the program; empty if it has all */
export function lacking() {
  if (typeof WebAssembly !== 'object' || !WebAssembly.validate(WIDE)) return message('browser.no_wide_memory');
  if (!suspends()) return message('browser.no_suspending');
  return typeof DecompressionStream === 'function' ? '' : message('browser.no_decompression');
}

/** @type {(command: string, status: number) => Message} that a subcommand has ended so */
export const endedWith = (command, status) => message('program.how', { command, how: message('program.ended', { status }) });

/** @type {(output: Uint8Array) => string[]} the lines that the program has written */
const linesIn = (output) => new TextDecoder().decode(output).split('\n').slice(0, -1);

export class Program {
  /** `code` is the worker's code, `module` the program under gzip in base64.
   * @param {string} code @param {string} module */
  constructor(code, module) {
    this.code = code;
    this.module = module;
    this.count = 0;
    this.calls = /** @type {Map<number, { done: (answer: any) => void, failed: (why: Error) => void }>} */ (new Map());
    /** @type {Worker} */
    this.worker; // once it is begun
    this.begun = /** @type {Promise<void> | null} */ (null); // a promise that ends when it is compiled
    this.attended = 0; // boards so far
  }

  /** Has it compiled, unless it is. */
  ready() {
    if (!this.begun) {
      this.begun = this.begin().catch((error) => {
        this.begun = null;
        throw error;
      });
    }
    return this.begun;
  }

  /** Has it compiled, in a new worker. */
  async begin() {
    const url = URL.createObjectURL(new Blob([this.code], { type: 'text/javascript' }));
    this.worker = new Worker(url);
    URL.revokeObjectURL(url);
    this.worker.onmessage = ({ data }) => this.answered(data);
    this.worker.onerror = (event) => this.broke(event.message || message('worker.ended'));
    await this.call('begin', { module: this.module });
  }

  /** @type {(said: { number: number, answer?: unknown, error?: string | Failure }) => void} */
  answered({ number, answer, error }) {
    const waiting = this.calls.get(number);
    this.calls.delete(number);
    if (!waiting) return;
    if (error === undefined) waiting.done(answer);
    else waiting.failed(new ProgramError(typeof error === 'string' ? error : new Message(error.key, error.places)));
  }

  /** @type {(why: Words) => void} the worker has ended, and is begun anew */
  broke(why) {
    this.worker.terminate();
    const waiting = [...this.calls.values()];
    this.calls.clear();
    this.begin().catch(() => {});
    waiting.forEach(({ failed }) => failed(new ProgramError(why)));
  }

  /** Calls the worker, which takes these bytes over, without a copy.
   * @template {keyof Calls} Name
   * @param {Name} name
   * @param {Parameters<Calls[Name]>[0]} given
   * @param {Uint8Array | null} bytes
   * @returns {Promise<Awaited<ReturnType<Calls[Name]>>>} */
  call(name, given, bytes = null) {
    this.count += 1;
    const number = this.count;
    return new Promise((done, failed) => {
      this.calls.set(number, { done, failed });
      this.worker.postMessage({ number, name, given }, bytes ? [bytes.buffer] : []);
    });
  }

  // A board that is attended.

  /** @type {(words: string[], asks?: boolean) => number} the key of a process that attends a board, or only asks it who it is */
  attend(words, asks = false) {
    this.attended += 1;
    const key = this.attended;
    const begun = this.call('attend', { key, words, asks });
    begun.catch(() => {}); // what is told then fails too, and says why
    return key;
  }

  /** @type {(key: number, at: number, word: string, given: Given) => Promise<Answer>} see `entryOf` */
  tell(key, at, word, given) {
    const entry = entryOf(at, word, given);
    return this.call('tell', { key, entry }, entry);
  }

  /** @type {(key: number) => void} ends the process */
  leave(key) {
    this.call('leave', { key }).catch(() => {});
  }

  // Bytes that are given.

  /** @type {(words: string[], sent: Uint8Array, line: string) => Promise<Outcome>} what `add` makes of the line */
  add(words, sent, line) {
    return this.run(['add', ...words, `--line=${line}`], sent);
  }

  /** @type {(words: string[], sent: Uint8Array, to: string) => Promise<Outcome>} these bytes, gone back as far as `to` says */
  back(words, sent, to) {
    return this.run(['back', ...words, `--to=${to}`], sent);
  }

  /** @type {(words: string[], sent: Uint8Array, line: string) => Promise<Outcome>} these bytes, with other moves in place of the last ones */
  instead(words, sent, line) {
    return this.run(['instead', ...words, `--line=${line}`], sent);
  }

  /** @type {(words: string[], sent: Uint8Array) => Promise<Outcome>} these bytes, with the plies put in that no picture shows */
  recover(words, sent) {
    return this.run(['recover', ...words], sent);
  }

  /** @type {(words: string[], input?: Uint8Array) => Promise<Outcome>} calls it */
  async run(words, input = new Uint8Array(0)) {
    if (input.length >= LARGE) return this.runAlone(words, input);
    await this.ready();
    return this.runHere(words, input);
  }

  /** @type {(words: string[], input: Uint8Array) => Promise<Outcome>} */
  runHere(words, input) {
    const copy = input.slice();
    return this.call('run', { words, input: copy }, copy);
  }

  /** The same, in a worker that ends with the call: so what a large input takes is free at once, and it holds up no other call. It gets the
   * input in parts, all in the same memory, which comes back when the program has read a part.
   * @type {(words: string[], input: Uint8Array) => Promise<Outcome>} */
  async runAlone(words, input) {
    const alone = new Program(this.code, this.module);
    try {
      await alone.ready();
      const answer = alone.call('runInParts', { words });
      answer.catch(() => {}); // whoever waits for it gets that
      let room = new Uint8Array(PART);
      for (let at = 0; at < input.length; at += PART) {
        const part = room.subarray(0, input.length - at);
        part.set(input.subarray(at, at + PART));
        room = /** @type {Uint8Array} */ (await alone.call('give', { part }, room));
      }
      await alone.call('give', { part: null });
      return await answer;
    } finally {
      alone.worker.terminate();
    }
  }

  /** @type {(words: string[], input: Uint8Array) => Promise<Uint8Array>} what it writes; throws ProgramError if it fails */
  async output(words, input) {
    const { status, output } = await this.run(words, input);
    if (status !== 0) throw new ProgramError(endedWith(words[0], status));
    return output;
  }

  /** @type {(words: string[], input: Uint8Array) => Promise<string[]>} the lines that it writes */
  async lines(words, input) {
    return linesIn(await this.output(words, input));
  }
}

/** What is told. `at` is its time by the clock that goes on in sleep, `now` by the page's; `isNoted` says whether the game's times have it.
 * @typedef {object} Hears
 * @property {(entry: Entry) => void} told
 * @property {(entry: Entry, answer: Answer) => void} answered in the order in which it was told
 * @property {() => void} wake the process is to be woken */

const COPIED = 1 << 16; // bytes: what follows so many is told, and copied, when they are answered

export class Attendant {
  /** `began` is when its call begins, by the clock that counts on; `asks` says that it only asks a board who it is.
   * @param {Program} program
   * @param {Guard} guard
   * @param {string[]} words
   * @param {Hears} hears
   * @param {{ began?: number, asks?: boolean }} call */
  constructor(program, guard, words, hears, { began = guard.counted(), asks = false } = {}) {
    this.program = program;
    this.guard = guard;
    this.hears = hears;
    this.began = began;
    this.last = began; // when it was told something last
    this.wasAway = guard.away();
    this.timer = /** @type {Timer | null} */ (null);
    this.isLeft = false;
    this.turn = /** @type {Promise<void>} */ (Promise.resolve()); // ends when the last large entry is answered
    this.key = program.attend(words, asks);
  }

  /** @type {(word: string, given?: Given, at?: number) => void} this happens, in this call */
  tell(word, given = null, at = this.guard.counted()) {
    const away = this.guard.away();
    if (away > this.wasAway) this.send(STOPPED, Math.floor(1000 * (away - this.wasAway)), at);
    this.wasAway = away;
    this.send(word, given, at);
  }

  /** This happens, or is from the calls before, and may be noted in the game's times already. An error in the process ends the recording.
   * @type {(word: string, given?: Given, at?: number, isNoted?: boolean) => void} */
  send(word, given = null, at = this.began, isNoted = false) {
    if (this.isLeft || this.guard.ended) return;
    this.last = Math.max(at, this.last);
    const entry = { word, given, at: this.last, now: this.guard.now(), isNoted };
    this.hears.told(entry);
    const since = this.last - this.began;
    const asked = this.turn.then(() => this.program.tell(this.key, since, word, given));
    if (given instanceof Uint8Array && given.length > COPIED) this.turn = asked.then(() => {}, () => {});
    this.guard.call(() => asked.then((answer) => this.answered(entry, answer), (error) => this.fails(error)));
  }

  /** @type {(entry: Entry, answer: Answer) => void} */
  answered(entry, answer) {
    if (this.isLeft || this.guard.ended) return;
    this.wakeIn(answer.due, entry.at);
    this.hears.answered(entry, answer);
  }

  /** @type {(error: Error) => void} */
  fails(error) {
    if (!this.isLeft) throw error;
  }

  /** @type {(due: number | null, at: number) => void} wakes it so many milliseconds after this time; never if that is null */
  wakeIn(due, at) {
    if (this.timer) this.timer.cancel();
    const wakes = () => this.isLeft || this.hears.wake();
    this.timer = due === null ? null : this.guard.after((at + due - this.guard.counted()) / 1000, wakes);
  }

  /** Ends it. */
  leave() {
    if (this.isLeft) return;
    this.isLeft = true;
    if (this.timer) this.timer.cancel();
    this.program.leave(this.key);
  }
}
