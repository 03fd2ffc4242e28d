// How a game begins. The next game of a board begins with the first start that it shows behind the end of the game before, or when somebody
// wants it. A game whose pieces were still being set up when its capture began does so anew with the start, when the program says so.

import { codesOf, lineOf } from '../child/report.js';
import { CABLE } from '../game/alarms.js';
import { fromStart, standsAt } from '../game/course.js';
import { ofBoard, startOf } from '../game/options.js';
import { same } from '../line/protocol.js';
import { Again } from '../run/guard.js';
import { message } from '../../live/show/page/message.js';

/** @typedef {[offset: number, placement: string]} PictureAt a picture, and the byte with which it was shown */
/** @typedef {Line & { event: Picture }} PictureLine */

const Reason = { RESULT: message('over.has_a_result'), NEXT: message('over.next_wanted') }; // why the game before is over

/** @type {(one: string, other: string) => boolean} */
const areAlike = (one, other) => same(codesOf(one), codesOf(other));

/** Whether what a board shows behind the end of its game is read by itself, since it stood at the start last before that: then the next dump
 * begins the next game. A game without a move was forfeited, and the start is its own.
 * @type {(stood: string, start: string, plies: number) => boolean} */
export const isReadAnew = (stood, start, plies) => plies > 0 && stood !== '' && areAlike(stood, start);

/** The byte with which the next game begins: that of the first start from the end on; null if none of these pictures is one.
 * @type {(pictures: PictureAt[], end: number, start: string) => number | null} */
export function nextBegins(pictures, end, start) {
  const found = pictures.find(([offset, placement]) => offset >= end && areAlike(placement, start));
  return found ? found[0] : null;
}

/** @param {Line | null} line @returns {line is PictureLine} */
const isPicture = (line) => line !== null && line.event.kind === 'picture';

class Beginning {
  /** @param {Session} session */
  constructor(session) {
    this.session = session;
    this.epoch = /** @type {number | null} */ (null); // of the lines with which the program has said so
    this.again = new Again(session.guard, (text) => session.says(text));
  }

  /** Whether the game just gets a capture that begins with the start. */
  get isOn() {
    const { isOver, attending } = this.session;
    return !isOver && this.epoch === attending.showing.epoch;
  }

  /** @type {(bytes: number) => Promise<void>} the game begins only behind so many bytes */
  begin(bytes) {
    this.epoch = this.session.attending.showing.epoch;
    return this.tryIt(bytes);
  }

  /** @type {(bytes: number) => Promise<void>} as long as that fails, what comes is kept with the set-up */
  tryIt(bytes) {
    const { session } = this;
    /** @type {(error: Error) => Message} */
    const told = (error) => message('next.not_from_the_start', { name: session.name, why: error.message });
    return this.again.try(() => session.typing.exclusively(() => this.renew(bytes)), told, () => this.tryIt(bytes));
  }

  /** @type {(bytes: number) => Promise<void>} */
  async renew(bytes) {
    const { session } = this;
    if (!this.isOn) return;
    const content = await fromStart(session.hall.calls, session.options, session.capture.view(), bytes);
    const looks = session.playing.alarms.looks.kept.filter(({ about }) => about === String(CABLE)); // the others were about the set-up
    await session.renew(content, true, { looks });
    session.says(message('board.set_up', { name: session.name }));
  }
}

export class NextGame {
  /** @param {Session} session */
  constructor(session) {
    this.session = session;
    this.beginning = new Beginning(session);
    this.again = new Again(session.guard, (text) => session.says(text));
    this.isReading = false;
    // What `readAgain` sets.
    this.at = /** @type {number | null} */ (null); // the byte with which the next game begins, once it is known
    this.stood = ''; // what the board showed last before the end
    this.hasShown = false; // whether it has shown anything since
    this.isRead = false; // whether what came up to that was read by itself
  }

  /** All lines are heard again. */
  readAgain() {
    this.at = null;
    this.stood = '';
    this.hasShown = false;
    this.isRead = false;
  }

  /** Where the game ends, and with it all that counts no more. */
  get end() {
    const { isOver, overTo, record } = this.session;
    return isOver ? Math.max(Number(record.game.end), overTo) : Infinity;
  }

  /** @type {(line: Line) => void} the next line of the report */
  hear(line) {
    if (!isPicture(line)) return;
    if (line.offset < this.end) {
      this.stood = line.event.placement;
    } else {
      this.hasShown = true;
      this.begins([[line.offset, line.event.placement]]);
    }
  }

  /** @type {(pictures: PictureAt[]) => void} these were shown */
  begins(pictures) {
    if (this.at === null) this.at = nextBegins(pictures, this.end, startOf(this.session.options));
  }

  /** All lines have been heard. */
  heardAll() {
    if (this.at !== null) this.session.guard.call(() => this.tryIt());
  }

  /** Once a second: if the board stood at the start already, the report doesn't say that it still does. So a call reads what came behind
   * the end, as if the board had shown nothing before. */
  look() {
    const { isOver, options, course, capture, guard } = this.session;
    if (!isOver || this.at !== null || this.isRead || this.isReading) return;
    if (!isReadAnew(this.stood, startOf(options), course.plies.length) || capture.size <= this.end) return;
    guard.call(() => this.read());
  }

  async read() {
    const { hall, options, capture, attending } = this.session;
    const { end, hasShown } = this;
    const { epoch } = attending.showing;
    this.isReading = true;
    try {
      const lines = await hall.calls.lines(['watch', ...ofBoard(options)], capture.view().subarray(end));
      if (epoch !== attending.showing.epoch) return;
      this.isRead = hasShown;
      this.begins(lines.map(lineOf).filter(isPicture).map(({ offset, event }) => [end + offset, event.placement]));
    } finally {
      this.isReading = false;
    }
    this.heardAll();
  }

  /** Begins the next game. If that fails, what comes is kept with the game that is over, after its end. */
  tryIt() {
    return this.again.try(() => this.begin(this.at), (error) => message('next.not_begun', { why: error.message }), () => this.heardAll());
  }

  /** @type {(offset: number | null) => Promise<unknown>} begins it with the start, which the board has shown since this byte */
  begin(offset) {
    const { session } = this;
    return session.typing.exclusively(async () => {
      if (offset === null || !session.isOver || this.at !== offset) return;
      const { capture, hall, options, record } = session;
      await session.begin(await fromStart(hall.calls, options, capture.view(), offset + 1), record.board.next || {});
      session.says(message('next.begins_at_the_start', { name: session.name }));
    });
  }

  /** Somebody wants the next game, whatever the board shows; with these options and this name, if given. If the pieces stand as after a
   * first move, the game begins with it only if `takesMove`; else, or if the kings show a result, it waits until they are set up.
   * @type {(wanted?: Wanted, takesMove?: boolean) => Promise<void>} */
  async want(wanted = {}, takesMove = false) {
    const { session } = this;
    await session.typing.exclusively(async () => {
      const { capture, course, hall, record } = session;
      if (!session.isOver && course.result !== '*') session.closeGame(capture.size, Reason.RESULT);
      const { dump, shows } = await standsAt(hall.calls, wanted.options || session.options, capture.view());
      if (!dump || (shows && !takesMove)) {
        this.wait(wanted, shows);
        return;
      }
      await session.begin(dump, wanted, session.isOver ? record.game : { ...record.game, end: capture.size });
      session.says(message('next.begins', { name: session.name }));
    });
  }

  /** @type {(wanted: Wanted, shows: Words) => void} it begins when the pieces are set up */
  wait(wanted, shows) {
    const { session } = this;
    session.record.knows({ next: wanted });
    if (!session.isOver) session.closeGame(session.capture.size, Reason.NEXT);
    session.says(message('next.set_up', { shows }));
    session.changed();
  }

  /** What it has if it waits until the pieces are set up; else null. */
  get awaited() {
    const { isOver, record } = this.session;
    return isOver ? record.board.next || null : null;
  }
}
