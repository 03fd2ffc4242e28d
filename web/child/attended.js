// What `live` is told of a board that it attends, and what it answers, as bytes. Section 6 of docs/FORMATS.md has the lines.
// Pure.

const NEWLINE = 0x0a;
const ALARMED = ['TURNED-ROUND', 'OTHER-BOARD'];
const [CLOCK_STOPPED, CLOCK_RUNS] = ['clock stopped', 'clock runs'];

// What is told, and noted in the times of a game.
export const [BEGIN, AWAY, OPENED, ANSWERED, GONE, CALLED] = ['begin', 'away', 'opened', 'answered', 'gone', 'called'];
export const [HEARD, BROUGHT, ADDED] = ['heard', 'brought', 'added']; // the capture got so many bytes
export const [STOPPED, ASKED, TOOK, OVER] = ['stopped', 'asked', 'took', 'over'];
export const [LOOKED, BACK, REOPENED, SUSPECT] = ['ok', 'back', 'reopened', 'suspect'];
// What is only told.
export const [KEPT, CAPTURE, NUMBER, LENT, WAKE, TEXT] = ['kept', 'capture', 'number', 'lent', 'wake', 'text'];
// What is answered.
export const [KEEP, HOLD, OTHER] = ['keep', 'hold', 'other'];
export const [AT, AFTER, SINCE, SUSPICION] = ['at', 'after', 'since', 'SUSPECT']; // where somebody must look
export const UNPLAYED = 'UNPLAYED'; // nobody may have played these moves

const OVER_SO = /^([A-Z-]+) (1-0|0-1|1\/2-1\/2|\*) ([0-9]+) (sure|unsure)$/;
const COUNTS = ['played', 'begins'];
const [FITS, GAME] = ['fits', 'game']; // behind which come as many bytes as they say, as behind `kept`
const RAISED = new RegExp(`^(?:(${SUSPICION}) ([0-9]+)|(${AT}|${AFTER}|${SINCE}) ([0-9]+) ([A-Z-]+)(?: ([0-9]+))?)$`);

/** A line that stands in no answer. */
export class NoAnswer extends Error {}

/** One thing that happens: when, in milliseconds since the call began; the word; its number, or the bytes behind it.
 * @type {(at: number, word: string, given?: Given) => Uint8Array} */
export function entryOf(at, word, given = null) {
  const bytes = given instanceof Uint8Array ? given : new Uint8Array(0);
  const number = given === null ? '' : ` ${given instanceof Uint8Array ? given.length : given}`;
  const line = new TextEncoder().encode(`${at} ${word}${number}\n`);
  const entry = new Uint8Array(line.length + bytes.length);
  entry.set(line);
  entry.set(bytes, line.length);
  return entry;
}

/** @type {() => Answer} before any line of it is read */
export function noAnswer() {
  const none = { handling: '', other: '', number: '', asks: '', end: null, clockStopped: null, state: null, due: null };
  return { kept: new Uint8Array(0), game: null, report: [], looks: [], ...none };
}

/** @type {(word: string) => number | null} */
const spanOf = (word) => (word === '-' ? null : Number(word));

/** @type {(words: string[]) => Stands} how the board stands */
function stateOf([kind, lasted, ...rest]) {
  const hint = ALARMED.includes(rest[rest.length - 1]) ? String(rest.pop()) : '';
  return { kind, lasted: spanOf(lasted), squares: rest, hint, fits: '' };
}

/** @type {(text: string) => Raised} what somebody must look at, as `at 27 LATE`, `since 24 STOPPED 3` or `SUSPECT 3` says it */
function readLook(text) {
  const [, suspect, number, where, plies, why, moves] = RAISED.exec(text) || [];
  if (suspect) return { where: suspect, plies: Number(number), why: suspect, moves: 0 };
  if (!where) throw new NoAnswer(`live wrote: look ${text.slice(0, 60)}`);
  return { where, plies: Number(plies), why, moves: Number(moves || 0) };
}

/** @type {(text: string) => Over} how a game is over, as `STOOD 0-1 335 sure` says it */
function readOver(text) {
  const [, why, result, bytes, sure] = OVER_SO.exec(text) || [];
  if (!why) throw new NoAnswer(`live wrote: over ${text.slice(0, 60)}`);
  return { why, result, bytes: Number(bytes), isSure: sure === 'sure' };
}

/** @type {() => End} */
const noEnd = () => ({ over: null, played: null, begins: null });

/** Takes what `live` writes, and gives its answers. */
export class Answers {
  constructor() {
    this.line = /** @type {string[]} */ ([]); // parts of the line that has begun
    this.filled = new Uint8Array(0); // what `kept`, `fits` or `game` has told
    this.fits = new Uint8Array(0); // what explains the board, before its state is read
    this.lacks = 0; // bytes of it that are still to come
    this.answer = noAnswer();
  }

  /** @type {(bytes: Uint8Array) => Answer[]} the answers that are whole with what it has written */
  take(bytes) {
    const whole = [];
    let at = 0;
    while (at < bytes.length) {
      if (this.lacks > 0) {
        const part = bytes.subarray(at, at + this.lacks);
        this.filled.set(part, this.filled.length - this.lacks);
        this.lacks -= part.length;
        at += part.length;
        continue;
      }
      const end = bytes.indexOf(NEWLINE, at);
      this.line.push(String.fromCharCode(...bytes.subarray(at, end < 0 ? bytes.length : end)));
      if (end < 0) break;
      at = end + 1;
      const line = this.line.join('');
      this.line = [];
      if (this.takeLine(line)) {
        whole.push(this.answer);
        this.answer = noAnswer();
      }
    }
    return whole;
  }

  /** @type {(line: string) => boolean} whether the line ends an answer */
  takeLine(line) {
    const { answer } = this;
    const [word, ...rest] = line.split(' ');
    if (/^[0-9]+$/.test(word)) {
      answer.report.push(line);
    } else if (word === KEPT || word === FITS || word === GAME) {
      this.lacks = Number(rest[0]);
      this.filled = new Uint8Array(this.lacks);
      if (word === KEPT) answer.kept = this.filled;
      else if (word === FITS) this.fits = this.filled;
      else answer.game = this.filled;
    } else if (word === KEEP || word === HOLD || word === OTHER) {
      answer.handling = word;
      answer.other = rest.join(' ');
    } else if (word === NUMBER) {
      [answer.number] = rest;
    } else if (word === 'ask') {
      [answer.asks] = rest;
    } else if (word === 'look') {
      answer.looks.push(readLook(rest.join(' ')));
    } else if (line === CLOCK_STOPPED || line === CLOCK_RUNS) {
      answer.clockStopped = line === CLOCK_STOPPED;
    } else if (word === 'state') {
      answer.state = { ...stateOf(rest), fits: String.fromCharCode(...this.fits).trim() };
      this.fits = new Uint8Array(0);
    } else if (word === 'over') {
      answer.end = { ...(answer.end || noEnd()), over: readOver(rest.join(' ')) };
    } else if (COUNTS.includes(word)) {
      answer.end = { ...(answer.end || noEnd()), [word]: Number(rest[0]) };
    } else if (word === 'done') {
      answer.due = spanOf(rest[0]);
      return true;
    } else if (word !== 'full') { // the recorder knows that by the size of the capture
      throw new NoAnswer(`live wrote: ${line.slice(0, 60)}`);
    }
    return false;
  }
}
