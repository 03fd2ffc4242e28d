// The time, and what is called later. A timer runs in a worker of its own: in a tab that nobody sees a browser lets timers wait for up to a
// minute, and a board must be asked each second. The loop turns four times a second: if a turn comes more than five seconds late, nobody
// has listened to the boards meanwhile.

/** @typedef {{ running: number, counting: number }} Clocks */

const LONGEST = 5.0; // seconds for which the loop may be held up

/** The seconds between two turns, if they were a time away; else 0. The loop meant to wait for `waited` of them at most. Each turn has two
 * times: `running`, by a clock that nobody sets but that may stand still while the computer sleeps, and `counting`, by the clock on the
 * wall, which counts on but may be set. The longer time counts: so a clock that stood still hides nothing, nor does one that was put back;
 * and one that was put forward by more than five seconds counts too, since nothing tells that from a sleep.
 * @type {(before: Clocks, now: Clocks, waited: number) => number} */
export function timeAway(before, now, waited) {
  const seconds = Math.max(now.running - before.running, now.counting - before.counting);
  return seconds - waited > LONGEST ? seconds : 0;
}

/** The seconds of that for which the first clock stood still: so much must be added to it, if it is to count on while the computer sleeps. A
 * sleep that is no time away isn't noticed.
 * @type {(before: Clocks, now: Clocks, waited: number) => number} */
export const stoodStill = (before, now, waited) => Math.max(0, timeAway(before, now, waited) - (now.running - before.running));

const PULSE = 250; // milliseconds after which the loop turns at the latest
const WAITS = `
  onmessage = ({ data }) => setTimeout(() => postMessage(data.number), data.milliseconds);
  setInterval(() => postMessage(null), ${PULSE});
`;

export class Loop {
  constructor() {
    this.calls = /** @type {Map<number | null, () => unknown>} */ (new Map());
    this.count = 0;
    const url = URL.createObjectURL(new Blob([WAITS], { type: 'text/javascript' }));
    this.worker = new Worker(url);
    URL.revokeObjectURL(url);
    this.worker.onmessage = ({ data }) => this.due(data);
    this.turn = this.clocks();
    this.wasAway = 0;
    this.stoodStill = 0;
  }

  /** In seconds since 1970. It never goes back, whatever is done to the computer's clock. */
  now() {
    return (performance.timeOrigin + performance.now()) / 1000;
  }

  /** The time in seconds, by a clock that nobody sets and by the one on the wall. */
  clocks() {
    return { running: performance.now() / 1000, counting: Date.now() / 1000 };
  }

  /** The seconds of all times in which the page was stopped, or the computer slept. */
  away() {
    const before = this.turn;
    this.turn = this.clocks();
    this.wasAway += timeAway(before, this.turn, PULSE / 1000);
    this.stoodStill += stoodStill(before, this.turn, PULSE / 1000);
    return this.wasAway;
  }

  /** In milliseconds, by a clock that nobody sets, and that counts on while the computer sleeps, as far as that is noticed. */
  counted() {
    this.away();
    return Math.floor(1000 * (this.turn.running + this.stoodStill));
  }

  /** @type {(seconds: number, call: () => unknown) => Timer} calls it once; `cancel` takes that back */
  after(seconds, call) {
    this.count += 1;
    const number = this.count;
    this.calls.set(number, call);
    this.worker.postMessage({ number, milliseconds: Math.max(0, seconds * 1000) });
    return { when: this.now() + seconds, cancel: () => this.calls.delete(number) };
  }

  /** @type {(number: number | null) => void} */
  due(number) {
    this.away();
    const call = this.calls.get(number);
    this.calls.delete(number);
    if (call) call();
  }
}
