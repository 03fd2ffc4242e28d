// Where the words of a page without a recorder come from: a file, which is asked for now and then.

/**
 * @typedef {import('./source.js').Hear} Hear
 * @typedef {{ written?: number, ended?: boolean }} Writing
 */

const EACH = 5000; // milliseconds
const STALE = 90000; // milliseconds: the recorder writes its file anew every 30 seconds

/**
 * Whether the recorder still writes its file. That is judged by the page's own time since the file was another one, so no clock
 * need be right. Only how old the first one is, or one after a long pause, is told by the server's date.
 */
export class Age {
  constructor() {
    /** @type {number | undefined} */
    this.written = undefined; // seconds since 1970, by the clock of who wrote it
    this.isEnded = false;
    this.isKnown = false; // false as long as nothing tells how old the file is
    this.changed = -Infinity;
    this.came = -Infinity;
  }

  /**
   * The file came at `now`, when the server's clock showed `date`, which is NaN if it tells none. Both are in milliseconds.
   * @type {(writing: Writing, date: number, now: number) => void}
   */
  take({ written, ended }, date, now) {
    const isFirst = now - this.came > STALE;
    if (written !== undefined && (isFirst || written !== this.written)) {
      const age = isFirst ? date - written * 1000 : 0;
      this.isKnown = !Number.isNaN(age);
      this.changed = now - Math.max(0, age || 0);
    }
    this.written = written;
    this.isEnded = ended === true;
    this.came = now;
  }

  /** @type {(now: number) => import('./stream.js').How} */
  how(now) {
    if (this.isEnded) return 'ended';
    if (now - this.changed > STALE) return 'stopped';
    return this.isKnown ? 'live' : 'connecting';
  }
}

export class Files {
  /**
   * @param {Hear} hear
   * @param {() => void} told
   */
  constructor(hear, told) {
    this.hear = hear;
    this.told = told;
    this.heard = -Infinity;
    this.wanted = 0;
    this.isLost = false;
    this.timer = 0;
    this.header = ''; // what was heard of the round
    /** @type {Map<number, string>} */
    this.texts = new Map(); // of the boards, as they were last
    this.age = new Age();
  }

  begin() {
    if (this.timer) return;
    this.wanted = performance.now();
    this.timer = window.setInterval(() => this.ask(), EACH);
    this.ask();
  }

  end() {
    window.clearInterval(this.timer);
    this.timer = 0;
  }

  again() {
    this.texts.clear();
    this.ask();
  }

  look() {}

  /** @type {() => import('./stream.js').How} */
  how() {
    return this.age.how(performance.now());
  }

  /** When the recorder wrote last, if it no longer writes: then clocks stand as they stood. */
  get stands() {
    return ['stopped', 'ended'].includes(this.how()) ? this.age.written || 0 : undefined;
  }

  async ask() {
    try {
      const answer = await fetch('state.json', { cache: 'no-cache' });
      if (!answer.ok) throw new Error(String(answer.status));
      const { written, ended, ...state } = await answer.json();
      this.age.take({ written, ended }, Date.parse(answer.headers.get('Date') || ''), performance.now());
      this.take(state);
      this.isLost = false;
    } catch {
      this.isLost = true;
    }
    this.told();
  }

  /** @type {(state: { boards: import('./card.js').Board[] }) => void} */
  take({ boards, ...round }) {
    this.heard = performance.now();
    this.hear('beat', { now: Date.now() / 1000 });
    const numbers = boards.map((board) => board.number);
    const header = JSON.stringify({ ...round, numbers });
    if (header !== this.header) this.hear('round', { ...round, numbers });
    this.header = header;
    for (const board of boards) {
      const text = JSON.stringify(board);
      if (this.texts.get(board.number) !== text) this.hear('board', board);
      this.texts.set(board.number, text);
    }
  }
}
