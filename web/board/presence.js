// Whether the board is heard, and how it stands, as the program says. A time in which nobody has heard it is a gap.

import { HEARD } from '../child/attended.js';
import { lasting } from '../../live/show/page/chess.js';
import { message } from '../../live/show/page/message.js';
import { ASKED_ANEW, JUST_ASKED, NOTHING_ASKED, RECOVERS, Refused } from '../game/typed.js';
import { Kind, stateOf } from './state.js';

const SAID = [Kind.WRONG, Kind.NO_START]; // states that are reported as lines too
const READ = 1; // seconds in which nobody can have read a question and answered it
const UNSEEN = ['UNPLUGGED', 'SILENT', 'WAITS']; // states in which the board may have shown nothing

/** When a board was away that was heard last at this time, if it was, and is heard again now; null if nobody knows: the page has slept too.
 * @type {(heardAt: number | null, hasSlept: boolean, now: number) => Gap | null} */
export const cameBack = (heardAt, hasSlept, now) => (heardAt === null || hasSlept ? null : { heardAt, cameAt: now });

export class Presence {
  /** @param {Session} session */
  constructor(session) {
    this.session = session;
    this.away = 0; // the seconds that this page was away when the board was last heard
    this.heardAt = /** @type {number | null} */ (null); // when the board was heard last; `leftAt`: the same, while it is away
    this.leftAt = /** @type {number | null} */ (null);
    this.gap = /** @type {Gap | null} */ (null); // when it was away last
    this.isSilent = false; // whether no board answers
    this.hasShown = false; // whether the board has shown something
    /** @type {Stands} */
    this.said = { kind: 'WAITS', lasted: null, squares: [], hint: '', fits: '' }; // `saidAt` is when
    this.saidAt = session.guard.now();
    this.clockStopped = false; // by both sides, and it ran before
    this.lastNews = ''; // of its state
    this.question = { fits: '', at: 0, shows: '' }; // what was last asked about, as it is typed; when; what the board showed then
  }

  /** @type {(now: number) => void} the board is heard now; the page may have slept too */
  isHeard(now) {
    const { guard, isOver, around } = this.session;
    const unheard = guard.away() - this.away;
    this.away += unheard;
    if (unheard > 0 && !isOver) this.session.says(message('board.slept_here', { time: lasting(unheard) }));
    const gap = cameBack(this.leftAt, unheard > 0, now);
    this.leftAt = null;
    this.heardAt = now;
    if (!gap) return;
    this.gap = gap;
    around.tells({ kind: 'returned' });
  }

  /** The board isn't heard any more. */
  isGone() {
    if (this.leftAt === null) this.leftAt = this.heardAt;
  }

  /** @type {(said: Stands, entry: Entry) => void} this is its state from now on */
  stands(said, { word, now }) {
    if (said.kind === 'WAITS' && this.hasShown) return; // another process attends it, which hasn't heard it yet
    this.hasShown = this.hasShown || !UNSEEN.includes(said.kind);
    this.said = said;
    this.saidAt = now;
    this.asks();
    const isSilent = said.kind === 'SILENT';
    if (isSilent !== this.isSilent) this.silence(isSilent, word);
    this.session.changed(false);
  }

  /** @type {(isSilent: boolean, word: string) => void} no board answers, or one does again: that is said if it has sent something */
  silence(isSilent, word) {
    this.isSilent = isSilent;
    if (isSilent) this.isGone();
    if (isSilent) this.session.says(message('port.no_answer'));
    else if (word === HEARD) this.session.says(message('port.answers_again'));
  }

  /** @param {boolean} stopped */
  clockIs(stopped) {
    const isNews = stopped !== this.clockStopped;
    this.clockStopped = stopped;
    if (isNews) this.session.changed(false);
  }

  get state() {
    const { capture, hidden, isOver, playing } = this.session;
    const isAsked = !isOver && !playing.forfeit && !playing.course.hasGoneBack;
    const beside = { result: playing.course.result, disk: capture.trouble, look: playing.alarms.looks.short, clockStopped: this.clockStopped };
    return stateOf({ ...this.said, fits: isAsked ? this.said.fits || hidden.typed : '' }, this.saidAt, playing.differs, beside);
  }

  /** What somebody accepts by `y`, as it is typed: the change that was last asked about. Refused if nothing is asked; if nobody can have read
   * the question; or if the board shows something else by now. But a game goes on behind plies that no picture showed. */
  accepts() {
    const { question } = this;
    this.asks();
    if (!this.question.fits) throw new Refused(NOTHING_ASKED);
    if (question !== this.question || this.session.guard.now() < question.at + READ) throw new Refused(JUST_ASKED);
    if (question.shows !== this.shows && !question.fits.startsWith(RECOVERS)) throw new Refused(ASKED_ANEW);
    return question.fits;
  }

  /** Another capture is recorded: nothing that was asked about the one before is asked any more. */
  asksNothing() {
    this.said = { ...this.said, fits: '' };
    this.session.hidden.typed = '';
    this.asks();
  }

  /** What is asked now, if that is news. */
  asks() {
    const { fits } = this.state;
    if (fits !== this.question.fits) this.question = { fits, at: this.session.guard.now(), shows: this.shows };
  }

  /** What the board shows, as its report has named it last. */
  get shows() {
    return this.session.playing.course.placement;
  }

  /** Once a second: an alarm of the state is reported, once. */
  look() {
    const { state } = this;
    this.asks();
    const { cable, guard, isOver, record } = this.session;
    const news = JSON.stringify([record.game.id, ...state.news]);
    const isNew = news !== this.lastNews;
    this.lastNews = news;
    if (isNew && SAID.includes(state.kind) && !isOver && !cable.isStopped) this.session.says(state.text(guard.now()));
  }
}
