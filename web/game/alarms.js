// The alarms of a game, which stay until somebody has looked, whatever the board shows. The program raises them, and the page some about
// cables and games that are over; here are their sentences. Pure; the caller keeps `looks`.

import { AFTER, SINCE, SUSPICION, UNPLAYED } from '../child/attended.js';
import { shortOf } from '../child/report.js';
import { isSame, linked, message, plural } from '../../live/show/page/message.js';

export const OVER = 'over'; // what an alarm about moves after a result is about

/** @type {(what: Words, why: Words, about?: Words) => Look} a new one about the same thing replaces it */
export const lookAt = (what, why, about = '') => ({ what, why, about: String(about) });

/** @type {(look: Look) => Message} `LOOK at 4... Qg4+` */
export const shortOfLook = (look) => message('look.short', { what: look.what });

/** @type {(look: Look) => Words} in full */
export const textOfLook = (look) => linked('colon', [shortOfLook(look), look.why]);

/** The alarms of a game that nobody has acknowledged yet, the newest last. */
export class Looks {
  /** @param {Look[]} [open] */
  constructor(open = []) {
    this.open = open;
  }

  /** @type {(look: Look) => Looks} with one more */
  withOneMore(look) {
    return new Looks([...this.open.filter((one) => !isSame(one.what, look.what) && !(look.about && one.about === look.about)), look]);
  }

  /** @type {(settled: Words[]) => Looks} moves after a result are settled too, if the last ply before it is gone */
  without(settled) {
    const texts = settled.map(String);
    /** @type {(look: Look) => boolean} */
    const isAbout = ({ what, about }) => texts.includes(String(what)) || (about === OVER && texts.includes(what.replace('after ', 'at ')));
    return new Looks(this.open.filter((look) => !isAbout(look)));
  }

  /** As they are kept: in texts. */
  get kept() {
    return this.open.map(({ what, why, about }) => lookAt(String(what), String(why), about));
  }

  /** As alarms of the game before: what they are about isn't in this game. */
  get carried() {
    return this.kept.map(({ what, why }) => lookAt(what, why));
  }

  /** The first one in a few words, and how many more there are; empty if there is none. */
  get short() {
    if (this.open.length === 0) return '';
    const [look, count] = [shortOfLook(this.open[0]), this.open.length - 1];
    return count > 0 ? message('look.and_more', { look, count }) : look;
  }

  /** All of them in full. */
  get all() {
    return linked('semicolon', this.open.map(textOfLook));
  }
}

/** @type {{ [why: string]: Message }} */
const WHY = {
  LATE: message('doubt.late'),
  ELSEWHERE: message('doubt.elsewhere'),
  'BOTH-ELSEWHERE': message('doubt.both_elsewhere'),
  'AFTER-GAP': message('doubt.after_gap'),
  'TAKEN-BACK': message('doubt.taken_back'),
  UNPRESSED: message('doubt.unpressed'),
  'MOVED-ON': message('doubt.moved_on'),
  RETURNED: message('doubt.returned'),
  'OTHER-TIME': message('doubt.other_time'),
};
const UNKNOWN = message('doubt.unknown'); // for another word
export const CABLE = message('look.at_the_cable'); // what an alarm about a cable is about
const CLOCK = 'clock'; // what an alarm about a stopped clock is about, before the ply
const RESULT = 'result'; // and one about moves that nobody may have played before the result

/** @type {(seen: Words) => Message} the message about what was acknowledged */
export const acknowledged = (seen) => (seen ? message('look.acknowledged', { seen }) : message('look.none'));

/** @type {(count: number, plies: Move[]) => Words} what a game with these plies has reached with so many of them */
function nameOf(count, plies) {
  if (count === 0) return message('ply.the_start');
  return count <= plies.length ? shortOf(plies[count - 1]) : message('ply.number', { number: count });
}

/** @type {(boards: number[]) => Words} the boards with these numbers */
function named(boards) {
  const names = [...boards].sort((one, other) => one - other).map(String);
  return linked('and', [names.slice(0, -1).join(', '), names[names.length - 1]].filter((part) => part));
}

/** @type {(others: number[]) => Look} the message about a cable that may have been exchanged with those of the boards with these numbers */
export function toldOfExchange(others) {
  return lookAt(CABLE, plural('cable.exchanged', others.length, { boards: named(others) }), CABLE);
}

/** @type {(others: number[]) => Look} the message about a board that has the same serial number as the boards with these numbers */
export function toldOfSameNumber(others) {
  return lookAt(CABLE, plural('cable.same_number', others.length, { boards: named(others) }), CABLE);
}

/** @type {(raised: Raised, plies: Move[]) => Look} an alarm of the program, in a game with these plies */
export function lookOf({ where, plies: count, why, moves }, plies) {
  if (where === SUSPICION) return toldOfExchange([count]);
  const ply = nameOf(count, plies);
  if (where === SINCE && why === UNPLAYED) {
    return lookAt(message('look.since', { ply }), plural('doubt.unplayed', moves), `${RESULT} ${ply}`);
  }
  if (where === SINCE) return lookAt(message('look.since', { ply }), plural('doubt.clock_stopped', moves), `${CLOCK} ${ply}`);
  return lookAt(where === AFTER ? message('look.after', { ply }) : message('look.at', { ply }), WHY[why] || UNKNOWN);
}

/** The byte that settled the ply which an alarm is about; 0 if that isn't known. Moves that were made `since` a ply begin with the next one.
 * @type {(raised: Raised, settledAt: number[]) => number} */
function byteOf({ where, plies: count }, settledAt) {
  if (where === SUSPICION) return 0;
  return settledAt[where === SINCE ? count : count - 1] || 0;
}

/** @type {(one: Look, other: Look) => boolean} */
const same = (one, other) => isSame(one.what, other.what) && isSame(one.why, other.why);

/** The alarms of a game that nobody has acknowledged yet. */
export class Alarms {
  /** @param {Look[]} [open] */
  constructor(open = []) {
    this.looks = new Looks(open);
    this.since = /** @type {Map<string, number>} */ (new Map()); // the byte that settled the ply which each alarm of the program is about
    this.suspected = /** @type {number[]} */ ([]); // the boards with which the game's cable may have been exchanged
  }

  /** @type {(look: Look) => boolean} */
  has(look) {
    return this.looks.open.some((one) => same(one, look));
  }

  /** The program has raised these in the game with this course. Returns the alarms that are new.
   * @type {(raised: Raised[], course: Pick<Course, 'plies' | 'settledAt'>) => Look[]} */
  raise(raised, { plies, settledAt }) {
    const before = this.looks.open;
    this.suspect(raised.filter(({ where }) => where === SUSPICION).map(({ plies: number }) => number));
    for (const one of raised) {
      const look = one.where === SUSPICION ? toldOfExchange(this.suspected) : lookOf(one, plies);
      if (!this.has(look)) this.since.set(String(look.what), byteOf(one, settledAt));
      this.add(look);
    }
    return this.looks.open.filter((look) => !before.some((one) => same(one, look)));
  }

  /** @type {(others: number[]) => void} with whose cables it may have been exchanged; the program says so soon */
  suspect(others) {
    this.suspected.push(...others.filter((other) => !this.suspected.includes(other)));
  }

  /** @type {(look: Look) => Look | null} adds it; null if it isn't new */
  add(look) {
    if (this.has(look)) return null;
    this.looks = this.looks.withOneMore(look);
    return look;
  }

  /** @type {(size: number) => void} plies behind so many bytes were a set-up, and alarms about them are dropped */
  end(size) {
    this.looks = new Looks(this.looks.open.filter((look) => (this.since.get(String(look.what)) || 0) < size));
  }

  /** Whether one is about moves that were made in a game that is over. */
  get hasPlayed() {
    return this.looks.open.some(({ about }) => about === OVER);
  }

  /** Acknowledges the alarms. Returns what they were about. */
  acknowledge() {
    const seen = this.looks.all;
    this.suspected = [];
    this.looks = new Looks();
    return seen;
  }
}

export const ISNT_OVER = message('advice.not_over', { how: message('press.no_result') }); // beside an alarm about moves

/** @type {(after: Words, moves: number, result: string) => Look} so many moves were made after its last one; a later count replaces it */
export function wentOn(after, moves, result) {
  const over = result === '*' ? message('over.without_result') : message('over.with_result', { result });
  return lookAt(message('look.after', { ply: after }), message('look.moves_after_result', { count: moves, over }), OVER);
}

/** @type {(ply: Words) => Look} this ply corrects the last one of a game after its result, with which the game is over */
export const corrected = (ply) => lookAt(message('look.at', { ply }), message('look.after_result'));

/** @type {(ply: Words) => Look} the board wasn't heard until the result had stood; this is its last ply */
export const unheard = (ply) => lookAt(message('look.after', { ply }), message('look.unheard_after_result'));
