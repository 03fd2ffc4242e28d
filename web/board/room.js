// The room in a capture. A board that is left on sends more than the program reads: so of what comes behind a game that is over, or
// before a first move, only the last stays.

import { MOST, isLong, needless } from '../kept/capture.js';
import { joined } from '../line/protocol.js';
import { Again } from '../run/guard.js';
import { message } from '../../live/show/page/message.js';

const LATER = 60.0; // seconds until it is tried again

export class Room {
  /** @param {Session} session */
  constructor(session) {
    this.session = session;
    this.again = new Again(session.guard, (text) => session.says(text), LATER);
    this.isBusy = false;
  }

  /** Whether the game is over since it could have no more. */
  get isFull() {
    return Number(this.session.record.game.end) >= MOST; // null counts as 0
  }

  /** A game is over when it has as many bytes as it may have. */
  close() {
    const { capture, isOver } = this.session;
    if (!isOver && capture.size >= MOST) this.session.closeGame(capture.size, message('over.capture_has_most'));
  }

  /** How many bytes of the capture are the game's; null if all that comes may be, or if the next game is just beginning. */
  get end() {
    const { isOver, next, playing } = this.session;
    if (isOver) return next.at === null ? next.end : null;
    const isEmpty = !playing.isOld && !playing.hasMoves && playing.course.result === '*' && !playing.forfeit;
    return isEmpty && !next.beginning.isOn ? 0 : null;
  }

  get isShort() {
    return this.end !== null && isLong(this.session.capture.size, this.end);
  }

  /** Once a second. */
  look() {
    if (this.isShort && !this.session.capture.isUnkept && !this.isBusy && !this.again.isWaiting) this.session.guard.call(() => this.tryIt());
  }

  async tryIt() {
    const { session } = this;
    /** @type {(error: Error) => Message} */
    const told = (error) => message('capture.not_shortened', { name: session.name, why: error.message });
    this.isBusy = true;
    await this.again.try(() => session.typing.exclusively(() => this.shorten()), told, () => this.look());
    this.isBusy = false;
  }

  async shorten() {
    if (!this.isShort) return;
    const { session } = this;
    const { capture, isOver, name, overTo, record, typedTo } = session;
    const end = Number(this.end);
    const bytes = capture.view();
    const [from, to] = needless(bytes, end);
    const content = joined(bytes.subarray(0, from), bytes.subarray(to));
    const changes = { typedTo: Math.min(typedTo, end), overTo, played: record.game.played || 0 };
    await session.renew(content, false, changes, isOver ? (one, other) => session.times.upTo(end, one, other) : undefined);
    session.says(isOver ? message('capture.long_behind', { name }) : message('capture.long_before', { name }));
  }
}
