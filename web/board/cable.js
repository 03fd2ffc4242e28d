// The cable of a board: its line, and whose board is on it, as the program says. What a board with another number sends is lent to
// the game that has this board; if there is none, it is kept back.

import { GONE, HEARD, KEEP, OPENED, OTHER, TOOK } from '../child/attended.js';
import { lookAt } from '../game/alarms.js';
import { SerialLine, Taken } from '../line/line.js';
import { linked, message } from '../../live/show/page/message.js';

const WHERE = message('look.at_the_cable');
const AGAIN = 2.0; // seconds until a port that another program has is tried again

/** Whether `ok` gives the board on the cable to this game, and not to its owner: a game with moves keeps its board until it is over.
 * @type {(owner: Owner | null, hasMoves: boolean) => boolean} */
export const mayTake = (owner, hasMoves) => owner === null || owner.isOver || !(owner.hasMoves || hasMoves);

/** @type {(own: string, shown: string, owner: Owner | null, hasMoves: boolean) => Look} another board, which may have its game */
export function another(own, shown, owner, hasMoves) {
  if (owner === null || owner.isOver) {
    const unknown = message('cable.unknown_board', { number: shown, own });
    const has = owner ? message('cable.board_of_one_over', { owner: owner.name, number: shown, own }) : unknown;
    return lookAt(WHERE, message('cable.unknown_board_taken', { has }), WHERE);
  }
  const has = message('cable.board_of_another', { owner: owner.name, number: shown, own });
  const takes = mayTake(owner, hasMoves) ? [message('cable.may_take')] : [];
  return lookAt(WHERE, linked('semicolon', [has, ...takes]), WHERE);
}

/** @type {(own: string, other: string) => Look} the game's own board is on the cable again */
export const back = (own, other) => lookAt(WHERE, message('cable.own_is_back', { other, own }), WHERE);

export class Cable {
  /** @param {Session} session @param {string} number */
  constructor(session, number) {
    this.session = session;
    this.number = number; // the serial number of the game's board, empty if unknown
    this.other = ''; // that of the board on the cable, if it is another one
    this.told = ''; // that of the other board that was last reported, while it is on the cable
    this.latest = /** @type {Uint8Array[]} */ ([]); // what the board has sent last
    this.port = /** @type {SerialPort | null} */ (null);
    this.connection = /** @type {SerialLine | null} */ (null);
    this.timer = /** @type {Timer | null} */ (null);
    this.trouble = /** @type {Words} */ (''); // why the port can't be opened: another program has it
    this.isLeft = false; // whether another game has its line
    this.isStopped = false; // whether somebody has stopped the recording
    session.guard.opened(() => this.close());
  }

  /** Whether its line is open, or is being opened. */
  get isOpen() {
    return this.connection !== null;
  }

  /** @type {(port: SerialPort) => Promise<void>} records from it from now on */
  async begin(port) {
    this.close();
    this.port = port;
    const { guard } = this.session;
    const connection = new SerialLine(guard, port, this);
    this.connection = connection;
    try {
      await connection.open();
      if (this.connection !== connection) return;
      this.opened();
    } catch (error) {
      if (this.connection !== connection) return;
      connection.close();
      this.connection = null;
      if (!(error instanceof Taken)) throw error;
      if (!this.trouble) this.taken(error.message);
      this.timer = guard.after(AGAIN, () => this.begin(port));
    }
  }

  /** @type {(connection: SerialLine, came: Uint8Array[]) => void} goes on with an open connection, which has brought this */
  take(connection, came) {
    this.close();
    this.port = connection.port;
    this.connection = connection;
    connection.hears = this;
    connection.guard = this.session.guard;
    this.opened();
    came.forEach((bytes) => this.heard(bytes));
  }

  opened() {
    this.trouble = '';
    this.isLeft = false;
    this.isStopped = false;
    this.session.attending.tell(OPENED);
    this.session.changed();
  }

  /** @type {(why: Words) => void} */
  taken(why) {
    this.trouble = message('port.not_opened');
    this.session.says(linked('colon', [this.trouble, why]));
    this.session.changed();
  }

  /** Leaves the line open to the game that has its board. */
  leave() {
    const { connection, latest } = this;
    this.connection = null;
    this.isLeft = true;
    this.session.attending.tell(GONE);
    this.close();
    return { connection, came: latest };
  }

  close() {
    if (this.timer) this.timer.cancel();
    if (this.connection) {
      if (this.connection.isOpen) this.session.attending.tell(GONE);
      this.connection.close();
    }
    this.connection = null;
    this.timer = null;
  }

  /** @type {(bytes: Uint8Array) => boolean} sends this to the board; whether its line is there */
  write(bytes) {
    if (this.connection) this.connection.write(bytes);
    return this.connection !== null;
  }

  // What the line does.

  /** @type {(bytes: Uint8Array) => void} */
  heard(bytes) {
    this.session.attending.tell(HEARD, bytes);
  }

  lost() {
    const { session } = this;
    this.connection = null;
    session.attending.tell(GONE);
    session.presence.isGone();
    const name = message('port.its_device');
    if (!session.isOver) session.says(message('cable.isnt_there', { name, advice: message('advice.plug_in') }));
    session.changed();
  }

  // Whose board it is.

  /** @type {(handling: string, number: string) => void} if its number is the game's, that was answered before it was taken */
  handled(handling, number) {
    if (handling === KEEP) this.other = '';
    if (handling !== OTHER || number === this.number) return;
    this.other = number;
    if (number === this.told) return;
    this.told = number;
    const { around, playing } = this.session;
    playing.tellLook(playing.alarms.add(another(this.number, number, around.owner(number), playing.hasMoves)));
  }

  /** @type {(bytes: Uint8Array, number: string) => void} of the game's board; with them its number may become known */
  brings(bytes, number) {
    if (number && !this.number) {
      this.latest = [bytes];
      this.isOwn(number);
      this.latest = [];
    } else if (this.told) {
      const before = this.told;
      this.told = '';
      const { playing } = this.session;
      playing.tellLook(playing.alarms.add(back(this.number, before)));
    }
  }

  /** @type {(number: string) => void} the board with this number is the game's from now on */
  isOwn(number) {
    this.number = number;
    this.session.record.knows({ serial: number });
    this.session.around.tells({ kind: 'numbered', number });
  }

  /** Another game has its board from now on. */
  loses() {
    this.number = '';
    this.other = '';
    this.told = '';
  }

  /** The board on the cable is the game's from now on, with all that it has sent. */
  takeOther() {
    if (!this.other) return;
    this.isOwn(this.other);
    this.told = '';
    this.other = '';
    this.session.attending.tell(TOOK);
  }
}
