// The serial ports: which board is on a port that has just come. A board that was unplugged is found again by its port
// or by its serial number.

import { BEGIN, HEARD, KEEP, NUMBER, OPENED, OTHER, WAKE } from '../child/attended.js';
import { Attendant } from '../child/program.js';
import { ofLive, optionsOf } from '../game/options.js';
import { SerialLine } from '../line/line.js';
import { Guard } from '../run/guard.js';
import { isSame, message } from '../../live/show/page/message.js';

const NOBODY = new TextEncoder().encode('-----'); // no board's number: each one that comes is another board's
const AGAIN = 2.0; // seconds between two looks for boards that are awaited
const MOST_ASKED = 8; // boards that are asked at a time, each by a process of the program besides those that attend boards

/** @type {(port: SerialPort, info: SerialPortInfo) => boolean} whether the device on a port is of this kind */
function isAlike(port, info) {
  const { usbVendorId, usbProductId } = port.getInfo();
  return !info || (info.usbVendorId === usbVendorId && info.usbProductId === usbProductId);
}

export class Ports {
  /** @param {Hall} hall */
  constructor(hall) {
    this.hall = hall;
    this.serial = navigator.serial || null;
    /** @type {Map<SerialPort, Promise<unknown>>} */
    this.asked = new Map(); // ports on which a board is being asked, each with what that will come to
    this.asking = 0; // how many processes ask now; `awaiting`: what goes on when there is room for one more
    this.awaiting = /** @type {((nothing?: unknown) => void)[]} */ ([]);
    this.unknown = /** @type {Set<SerialPort>} */ (new Set()); // ports on which no awaited board was found
    this.trouble = /** @type {Words} */ (''); // why a device couldn't be looked at last
    /** @type {WeakSet<SerialPort>} */
    this.chosen = new WeakSet(); // ports that somebody has chosen since they were plugged in: he says what they are for
  }

  /** The seats that don't hear their boards. */
  awaited() {
    return this.hall.recorded().filter((seat) => seat.isWaiting || seat.isSilent);
  }

  /** @type {(port: SerialPort) => boolean} whether a seat records from it */
  isUsed(port) {
    return this.hall.recorded().some((seat) => seat.port === port && !seat.isWaiting);
  }

  /** Looks at all ports that this page may use, at each new one, and now and then while a board is awaited. */
  async begin() {
    if (!this.serial) return;
    this.serial.addEventListener('connect', (event) => {
      this.unknown.clear();
      this.chosen.delete(event.target);
      this.tryOne(event.target);
    });
    await this.look();
    this.lookAgain();
  }

  lookAgain() {
    this.hall.loop.after(AGAIN, () => {
      if (this.awaited().length > 0) this.look().catch((error) => console.error(error));
      this.lookAgain();
    });
  }

  async look() {
    if (!this.serial) return;
    for (const port of await this.serial.getPorts()) this.tryOne(port);
  }

  /** @type {(port: SerialPort) => void} looks at it; an error doesn't affect the others */
  tryOne(port) {
    this.came(port).catch((error) => {
      console.error(error);
      const why = error.message || String(error);
      if (!isSame(why, this.trouble)) this.hall.says(message('port.not_looked_at', { why }));
      this.trouble = why;
    });
  }

  /** @type {(port: SerialPort) => Promise<void>} if an awaited board is on it, its game goes on with all that the board has sent */
  async came(port) {
    if (this.asked.has(port)) return;
    const own = this.awaited().find((seat) => seat.port === port && seat.isWaiting);
    if (own) {
      own.plug(port);
      return;
    }
    const isKnown = this.isUsed(port) || this.unknown.has(port) || this.chosen.has(port);
    if (isKnown || this.awaited().length === 0) return;
    await this.withBoard(port, (heard) => heard && this.decide(port, heard));
  }

  /** Gives a board to the awaited game that has it, if that is clear.
   * @type {(port: SerialPort, heard: Heard) => Promise<void>} */
  async decide(port, heard) {
    const { connection, came, number } = heard;
    const awaited = this.awaited();
    const others = awaited.filter((seat) => !(seat.serial && number) && seat.isWaiting && isAlike(port, seat.session.record.board.info));
    const found = awaited.find(({ serial }) => serial && serial === number) || (others.length === 1 ? others[0] : null);
    if (found) {
      found.take(port, connection, came);
      return;
    }
    await connection.close();
    this.unknown.add(port);
    this.hall.devices.came(port, heard);
  }

  /** Asks the board on a port who it is (see `ask`), and calls `use` with that. Nobody else uses the port meanwhile.
   * @type {(port: SerialPort, use: (heard: Heard | null) => unknown) => Promise<void>} */
  async withBoard(port, use) {
    while (this.asked.has(port)) await this.asked.get(port)?.catch(() => {});
    const done = this.ask(port).then(use).finally(() => this.asked.delete(port));
    this.asked.set(port, done);
    await done;
  }

  /** Waits until one more process may ask. */
  async room() {
    if (this.asking < MOST_ASKED) this.asking += 1;
    else await new Promise((go) => this.awaiting.push(go));
  }

  /** One process less asks: the next one has its place. */
  makeRoom() {
    const next = this.awaiting.shift();
    if (next) next();
    else this.asking -= 1;
  }

  /** Opens a port, and asks the board on it who it is. `came` is what it has sent, `number` is empty if it gives none, and `isSilent` says
   * that no board answers. Null if the port can't be opened, or is gone again.
   * @type {(port: SerialPort) => Promise<Heard | null>} */
  ask(port) {
    return new Promise((done, failed) => {
      const guard = new Guard(this.hall.loop, failed);
      const came = /** @type {Uint8Array[]} */ ([]);
      let attendant = /** @type {Attendant | null} */ (null);
      const leave = () => {
        if (!attendant) return;
        attendant.leave();
        attendant = null;
        this.makeRoom();
      };
      /** @type {(answer: Heard | null) => void} */
      const end = (answer) => {
        leave();
        done(answer);
      };
      /** @type {(number: string, isSilent?: boolean) => void} */
      const decide = (number, isSilent = false) => end({ connection, came, number, isSilent });
      const connection = new SerialLine(guard, port, {
        heard: (bytes) => {
          came.push(bytes);
          if (attendant) attendant.tell(HEARD, bytes);
        },
        lost: () => end(null),
      });
      guard.opened(() => connection.close());
      /** @type {(entry: Entry, answer: Answer) => void} */
      const answered = ({ word }, { asks, handling, other, state }) => {
        if (asks) connection.write(new TextEncoder().encode(asks));
        if (handling === OTHER) decide(other);
        else if (state && state.kind === 'SILENT') decide('', true);
        else if (handling === KEEP && word === HEARD) decide(''); // it gives no number
      };
      const begin = async () => {
        await this.room();
        if (connection.closed) {
          this.makeRoom();
          return;
        }
        const hears = { told: () => {}, answered, wake: () => asker.tell(WAKE) };
        /** @type {Attendant} */
        const asker = new Attendant(this.hall.program, guard, ofLive(optionsOf()), hears, { asks: true });
        attendant = asker;
        guard.opened(leave);
        asker.send(BEGIN, 0);
        asker.send(NUMBER, NOBODY);
        asker.tell(OPENED);
        came.forEach((bytes) => asker.tell(HEARD, bytes));
      };
      // Another program may have it, or a tab that is just being closed.
      const gone = () => connection.close().then(() => end(null));
      connection.open().then(() => guard.call(begin), gone);
    });
  }
}
