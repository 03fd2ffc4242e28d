// Where the page's words come from: one connection to the recorder for all tabs of a browser, which allows six to a server.
//
// One tab leads: it has the connection, and passes each word on. The browser's lock says which one. A visible tab that gets no
// answer from the leading one takes the lock from it: a browser may have stopped a tab that nobody sees. Browsers have locks
// only for HTTPS and for their own computer. Without them, each visible tab has its own connection, and a hidden one none.

/**
 * @typedef {(kind: string, data: any) => void} Hear gets a beat, the round or a board
 * @typedef {[kind: string, data: unknown]} Word
 * @typedef {{ asks: string } | { to?: string, words: Word[], age: number, isLost: boolean }} Passed among tabs
 */

const NAME = 'round';
const DEAD = 12000; // milliseconds without a message, after which the connection is made anew
const AGAIN = 2000; // milliseconds until the next try, if the browser has given up
const ANSWER = 1500; // milliseconds that the leading tab has to answer
const KINDS = ['beat', 'round', 'board'];

// In another site's frame a browser may refuse both.
export const SHARES = Boolean(window.BroadcastChannel && navigator.locks && window.top === window.self);

export class Source {
  /**
   * `hear(kind, data)` is called for each word, `told()` after some; `known()` is all that was heard, as a list of words.
   * @param {Hear} hear
   * @param {() => void} told
   * @param {() => Word[]} known
   */
  constructor(hear, told, known) {
    this.hear = hear;
    this.told = told;
    this.known = known;
    this.name = Math.random().toString(36).slice(2);
    this.isOn = false;
    this.heard = -Infinity; // when the last word came
    this.wanted = 0; // since when this tab wants to hear something
    this.asked = 0; // when it last asked the leading tab
    this.isLost = false;
    /** @type {EventSource | null} */
    this.events = null; // the connection, if this tab has one
    this.begun = 0; // when it was made
    /** @type {BroadcastChannel | null} */
    this.channel = null;
    /** @type {AbortController | null} */
    this.lock = null; // what ends the wait for the lock
    /** @type {((value?: unknown) => void) | null} */
    this.release = null; // gives the lock back
    this.tries = 0;
    this.waits = 0;
  }

  begin() {
    if (this.isOn) return;
    this.isOn = true;
    this.isLost = false;
    this.wanted = performance.now();
    if (!SHARES) {
      this.connect();
      return;
    }
    this.channel = new BroadcastChannel(NAME);
    this.channel.addEventListener('message', (event) => this.take(event.data));
    this.lead(false);
    this.ask();
  }

  /** Lets everything go, so that others have it. */
  end() {
    this.isOn = false;
    this.hang();
    window.clearTimeout(this.waits);
    if (this.channel) this.channel.close();
    if (this.lock) this.lock.abort();
    if (this.release) this.release();
    this.channel = null;
    this.lock = null;
    this.release = null;
  }

  /** What came is unusable: all of it is requested again. */
  again() {
    if (this.events || !this.channel) this.connect();
    else this.ask();
  }

  /**
   * What a page is that hears something.
   * @type {() => import('./stream.js').How}
   */
  how() {
    return 'live';
  }

  /** When the recorder wrote last, if it no longer writes: a page that is connected knows of no such time. */
  get stands() {
    return undefined;
  }

  /** Call this now and then. */
  look() {
    const now = performance.now();
    if (this.events && now - Math.max(this.begun, this.heard) > DEAD) this.connect();
    else if (this.channel && !this.events && now - Math.max(this.heard, this.asked) > ANSWER * 2) this.ask();
  }

  // The connection.

  connect() {
    this.hang();
    this.begun = performance.now();
    const events = new EventSource('/events');
    this.events = events;
    for (const kind of KINDS) {
      events.addEventListener(kind, (event) => {
        const data = JSON.parse(event.data);
        this.heard = performance.now();
        this.isLost = false;
        this.post({ words: [[kind, data]] });
        this.hear(kind, data);
        this.told();
      });
    }
    events.addEventListener('error', () => {
      this.isLost = true;
      this.post({ words: [] });
      this.told();
      if (events.readyState === EventSource.CLOSED) this.tries = window.setTimeout(() => this.connect(), AGAIN);
    });
  }

  hang() {
    window.clearTimeout(this.tries);
    if (this.events) this.events.close();
    this.events = null;
  }

  // The tabs among themselves.

  /**
   * Leads as soon as no other tab does, or at once if it `takes` the lock.
   * @type {(takes: boolean) => void}
   */
  lead(takes) {
    if (this.lock) this.lock.abort();
    const lock = new AbortController();
    this.lock = lock;
    const held = () => {
      if (this.lock !== lock) return undefined;
      this.connect();
      return new Promise((release) => {
        this.release = release;
      });
    };
    navigator.locks.request(NAME, takes ? { steal: true } : { signal: lock.signal }, held).catch((error) => {
      if (this.lock !== lock) return;
      this.hang();
      if (error.name === 'AbortError') this.lead(false); // another tab has taken it
      else this.connect();
    });
  }

  /** @type {(message: { to?: string, words: Word[] }) => void} */
  post(message) {
    if (this.channel) this.channel.postMessage({ ...message, age: performance.now() - this.heard, isLost: this.isLost });
  }

  /** Asks the leading tab for all that it knows. */
  ask() {
    window.clearTimeout(this.waits);
    this.asked = performance.now();
    if (this.channel) this.channel.postMessage({ asks: this.name });
    this.waits = window.setTimeout(() => {
      if (!this.events && !document.hidden) this.lead(true);
    }, ANSWER);
  }

  /** @type {(message: Passed) => void} */
  take(message) {
    if ('asks' in message) {
      if (this.events) this.post({ to: message.asks, words: this.heard === -Infinity ? [] : this.known() });
    } else if (!this.events && (!message.to || message.to === this.name)) {
      window.clearTimeout(this.waits);
      this.heard = performance.now() - message.age;
      this.isLost = message.isLost;
      for (const [kind, data] of message.words) this.hear(kind, data);
      this.told();
    }
  }
}
