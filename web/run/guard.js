// A guard between one board and the rest of the page: an error in one board ends only that one. And what is tried again.

/** The calls of a loop for one part. If a call throws, the part ends: no more of its calls are made, and `broke` gets the error. */
export class Guard {
  /** @param {Loop} loop @param {(error: Error) => void} broke */
  constructor(loop, broke) {
    this.loop = loop;
    this.broke = broke;
    this.closes = /** @type {(() => unknown)[]} */ ([]);
    this.ended = false;
    this.error = /** @type {Error | null} */ (null); // that has ended it
  }

  now() {
    return this.loop.now();
  }

  away() {
    return this.loop.away();
  }

  counted() {
    return this.loop.counted();
  }

  /** @type {(seconds: number, call: () => unknown) => Timer} */
  after(seconds, call) {
    return this.loop.after(seconds, () => this.call(call));
  }

  /** @type {(call: () => unknown) => void} now, unless the part has ended; later steps of an asynchronous call are guarded too */
  call(call) {
    if (this.ended) return;
    try {
      const later = call();
      if (later instanceof Promise) later.catch((error) => this.fail(error));
    } catch (error) {
      this.fail(error);
    }
  }

  /** @type {(close: () => unknown) => void} closes what was opened, when the part ends */
  opened(close) {
    this.closes.push(close);
  }

  /** @type {(error: Error) => void} */
  fail(error) {
    if (this.ended) return;
    this.error = error;
    this.end();
    this.broke(error);
  }

  /** Calls nothing further, and closes what is open, the last first. */
  end() {
    if (this.ended) return;
    this.ended = true;
    for (const close of this.closes.reverse()) {
      try {
        close();
      } catch (error) {
        console.error(error);
      }
    }
  }
}

const TICK = 1.0; // seconds until it is tried again, unless others are given

/** What may fail, as when the disk is full: that is said once, and it is tried again. */
export class Again {
  /** @param {Guard} guard @param {(text: Words) => void} says @param {number} [seconds] */
  constructor(guard, says, seconds = TICK) {
    this.guard = guard;
    this.says = says;
    this.seconds = seconds;
    this.isLate = false; // whether it has failed
    this.isWaiting = false; // until it is tried again
  }

  /** Does this work. If it fails, `told(error)` is said, and `again` is called later.
   * @type {(work: () => unknown, told: (error: Error) => Words, again: () => unknown) => Promise<void>} */
  async try(work, told, again) {
    try {
      await work();
      this.isLate = false;
    } catch (error) {
      if (!this.isLate) this.says(told(error));
      this.isLate = true;
      if (this.isWaiting) return;
      this.isWaiting = true;
      this.guard.after(this.seconds, () => {
        this.isWaiting = false;
        return again();
      });
    }
  }
}
