// A board that stays otherwise than its game, and that no change of it alone explains: its capture is read once more, as with Recover. If that
// finds two plies, somebody is asked about them.

import { askedPair } from '../game/hidden.js';
import { RECOVERS } from '../game/typed.js';
import { Kind } from './state.js';

const LONG = 15.0; // seconds in which a board is otherwise before it is read so, and from one reading to the next
const MOST = 4 << 20; // bytes of a capture that is read so: a longer one takes the program long
const OTHERWISE = [Kind.WRONG, Kind.IN_HAND, Kind.SETTING_UP];

export class Hidden {
  /** @param {Session} session */
  constructor(session) {
    this.session = session;
    this.nextAt = /** @type {number | null} */ (null); // when the capture is read again; null while nothing is to be found
    this.size = 0; // of the capture that was read last
    this.typed = ''; // what is typed for the plies that are found
  }

  /** Once a second. */
  look() {
    const { capture, guard, isOver, options, presence } = this.session;
    const now = guard.now();
    if (isOver || options.recover || !OTHERWISE.includes(presence.state.kind) || presence.said.fits) {
      this.nextAt = null;
      this.typed = '';
    } else if (this.nextAt === null) {
      this.nextAt = now + LONG;
    } else if (now >= this.nextAt && capture.size !== this.size && capture.size <= MOST) {
      this.nextAt = now + LONG;
      guard.call(() => this.read().catch((error) => console.error(error))); // a question isn't worth a recording
    }
  }

  async read() {
    const { attending, capture, course, hall, options, presence } = this.session;
    const { epoch } = attending.showing;
    this.size = capture.size;
    const pair = await askedPair(hall.calls, options, capture.view(), course.plies);
    if (epoch !== attending.showing.epoch || this.nextAt === null) return;
    this.typed = pair ? `${RECOVERS} ${pair.moves}` : '';
    presence.asks();
  }
}
