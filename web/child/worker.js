// The worker: it runs the proved program, a WebAssembly module. Each board that is recorded has a process that attends it, and is
// suspended while nothing happens there; all other calls end at once.

import { start } from '../../hosts/process.mjs';
import { joined, run } from '../../hosts/wasm.mjs';
import { Answers } from './attended.js';

// A browser has room for some 62 instances of the program; the rest is for those that ask boards who they are, and for short calls.
const MOST = 48;

/** @type {WebAssembly.Module} */
let program; // once it is compiled
let ready = Promise.resolve(); // ends when it is compiled
const attended = /** @type {Map<number, Attended>} */ (new Map()); // by their keys

/** @type {(key: string, places?: { [name: string]: unknown }) => Failure} what the page makes a message of, since it has the catalogue */
const message = (key, places = {}) => ({ key, places });

/** @type {(given: { module: string }) => Promise<void>} compiles the module, which came under gzip in base64 */
async function begin({ module }) {
  const packed = Uint8Array.from(atob(module), (letter) => letter.charCodeAt(0));
  const stream = new Blob([packed]).stream().pipeThrough(new DecompressionStream('gzip'));
  program = await WebAssembly.compile(await new Response(stream).arrayBuffer());
}

/** A board that is attended: its process, and those who wait for its answers, in order. */
class Attended {
  /** @param {boolean} asks */
  constructor(asks) {
    this.asks = asks; // whether it only asks a board who it is
    this.answers = new Answers();
    this.waiting = /** @type {{ done: (answer: Answer) => void, failed: (why: Failure) => void }[]} */ ([]);
    this.process = /** @type {Process | null} */ (null);
    this.why = /** @type {Failure | null} */ (null); // a message why there is no process, or none any more
  }

  /** @type {(words: string[]) => void} */
  begin(words) {
    try {
      this.process = start(program, ['live', ...words], (bytes) => this.wrote(bytes));
    } catch (error) {
      this.ended(message('worker.no_room', { why: error.message }));
      return;
    }
    this.process.ended.then(
      ({ status, errors }) => this.ended(message('worker.recorder_ended_with', { status, why: errors.trim() })),
      (error) => this.ended(message('worker.recorder_ended_by', { why: error.message })),
    );
  }

  /** @type {(entry: Uint8Array) => Promise<Answer>} tells it something */
  tell(entry) {
    if (this.why) throw this.why;
    return new Promise((done, failed) => {
      this.waiting.push({ done, failed });
      /** @type {Process} */ (this.process).push(entry);
    });
  }

  /** @type {(bytes: Uint8Array) => void} */
  wrote(bytes) {
    for (const answer of this.answers.take(bytes)) {
      const [{ done }] = this.waiting.splice(0, 1);
      done(answer);
    }
  }

  /** @type {(why: Failure) => void} */
  ended(why) {
    this.process = null;
    this.why = why;
    this.waiting.forEach(({ failed }) => failed(why));
    this.waiting = [];
  }
}

/** @type {(given: { key: number, words: string[], asks: boolean }) => void} */
function attend({ key, words, asks }) {
  const one = new Attended(asks);
  const count = [...attended.values()].filter((other) => other.process && !other.asks).length;
  attended.set(key, one);
  if (asks || count < MOST) one.begin(words);
  else one.ended(message('worker.too_many', { most: MOST }));
}

/** @type {(given: { key: number, entry: Uint8Array }) => Promise<Answer>} a board that has no process fails so */
function tell({ key, entry }) {
  const one = attended.get(key);
  if (!one) throw message('worker.recorder_ended');
  return one.tell(entry);
}

/** @type {(given: { key: number }) => void} */
function leave({ key }) {
  const one = attended.get(key);
  if (one && one.process) one.process.kill();
  attended.delete(key);
}

// A call whose input comes in parts: no more of it than one part is here at a time.

let inParts = /** @type {Process | null} */ (null); // its process

/** @type {(given: { words: string[] }) => Promise<Outcome>} */
async function runInParts({ words }) {
  const parts = /** @type {Uint8Array[]} */ ([]);
  inParts = start(program, words, (bytes) => parts.push(bytes.slice()));
  const { status, errors } = await inParts.ended;
  return { status, output: joined(parts), errors: new TextEncoder().encode(errors) };
}

/** The next part of its input; none is left if that is null. The part's memory goes back when it is read, or when the process has ended.
 * @type {(given: { part: Uint8Array | null }) => Promise<Uint8Array | null>} */
async function give({ part }) {
  const process = /** @type {Process} */ (inParts);
  await Promise.race([part ? process.push(part) : process.end(), process.ended]);
  return part && new Uint8Array(part.buffer);
}

/** @type {(given: { words: string[], input: Uint8Array }) => Outcome} */
const runOnce = ({ words, input }) => run(program, words, input);

const CALLS = { attend, tell, leave, run: runOnce, runInParts, give };

/** @typedef {typeof CALLS & { begin: typeof begin }} Calls what the page calls here, by the name that it sends */

/** @type {(answer: any) => ArrayBuffer[]} the memory that goes to the page with an answer, without a copy */
function memoryOf(answer) {
  const given = answer ? [answer, answer.output, answer.kept, answer.game] : [];
  return given.filter((bytes) => bytes instanceof Uint8Array).map(({ buffer }) => buffer);
}

onmessage = async ({ data: { number, name, given } }) => {
  try {
    if (name === 'begin') ready = begin(given);
    await ready;
    const answer = name === 'begin' ? null : await CALLS[/** @type {keyof typeof CALLS} */ (name)](given);
    postMessage({ number, answer }, { transfer: memoryOf(answer) });
  } catch (error) {
    postMessage({ number, error: error.key ? error : String(error.message || error) });
  }
};
