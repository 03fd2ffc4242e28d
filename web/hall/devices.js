// The devices that somebody chooses in the browser's list, and what they need on each system. A game whose board has another device now, or
// whose device the browser has forgotten, is known again by the board's serial number; if the board gives none, somebody is asked. So no
// board gets a second card.

import { Complaint, linked, message } from '../../live/show/page/message.js';
import { Exchanges } from './exchanged.js';
import { Ports } from './ports.js';

/** The system of this browser: 'Windows', 'macOS', 'Linux' or 'ChromeOS'; empty if it is another one.
 * @type {(browser: { userAgentData?: { platform: string }, platform?: string, userAgent?: string }) => string} */
export function systemOf({ userAgentData, platform = '', userAgent = '' }) {
  const name = `${userAgentData ? userAgentData.platform : platform} ${userAgent}`;
  if (/CrOS|Chrom\w* ?OS/.test(name)) return 'ChromeOS';
  if (/^Win/.test(name)) return 'Windows';
  if (/^mac/i.test(name)) return 'macOS';
  return /^Linux/.test(name) ? 'Linux' : '';
}

/** @type {{ [system: string]: Message }} */
const WHICH = {
  Windows: message('port.which_on_windows'),
  macOS: message('port.which_on_macos'),
  Linux: message('port.which_on_linux'),
  ChromeOS: message('port.which_on_chromeos'),
};

/** @type {{ [system: string]: Message }} */
const MISSING = {
  Windows: message('port.missing_on_windows'),
  macOS: message('port.missing_on_macos'),
  Linux: message('port.missing_on_linux'),
  ChromeOS: message('port.missing_on_chromeos'),
};

/** @type {(system: string) => Words} which device is the board */
export const whichDevice = (system) => linked('space', [WHICH[system] || WHICH.Windows, message('port.see_which_has_gone')]);

/** @type {(system: string) => Words} what to do if the board isn't in the list */
export const missingDevice = (system) => MISSING[system] || MISSING.Windows;

/** @type {(system: string) => Words} what to do if the device can't be opened */
export function lockedDevice(system) {
  const onLinux = system === 'Linux' ? [message('port.locked_on_linux')] : [];
  return linked('space', [message('port.locked'), ...onLinux, message('port.tried_again')]);
}

/** @typedef {Omit<Heard, 'connection'> & { connection: Heard['connection'] | null }} Answered what a board has told, or that none answers
 * @typedef {[label: Words, done: () => Promise<unknown>]} Choice */

/** @type {Answered} */
const NO_ANSWER = { connection: null, came: [], number: '', isSilent: true };

/** @type {(error: Error) => Words} that something can't be done, and why */
const toldOf = (error) => linked('colon', [message('failed.that'), error.message || String(error)]);

export class Devices {
  /** @param {Hall} hall */
  constructor(hall) {
    this.hall = hall;
    this.ports = new Ports(hall);
    this.exchanges = new Exchanges(hall);
    this.asking = 0; // boards that are being asked who they are
    this.last = /** @type {Promise<unknown>} */ (Promise.resolve()); // boards are added one after the other
  }

  /** Somebody adds a board: the game that has it goes on, or a new card is made. */
  async add() {
    const port = await this.chosen();
    if (!port) return;
    const holder = this.holder(port);
    if (holder) this.show(holder, message('port.recorded_already'));
    else await this.hear(port, (heard) => this.inTurn(() => this.place(port, heard)));
  }

  /** @type {() => Promise<SerialPort | null>} chosen in the browser's list; null if it is closed without a choice */
  async chosen() {
    try {
      const port = await navigator.serial.requestPort();
      this.hall.notice('device', '');
      this.ports.chosen.add(port);
      return port;
    } catch (error) {
      if (error.name !== 'NotFoundError') throw error;
      const system = systemOf(navigator);
      this.hall.notice('device', linked('space', [message('port.none_chosen'), whichDevice(system), missingDevice(system)]));
      return null;
    }
  }

  /** @type {(port: SerialPort) => Recorded | undefined} the board that is recorded from a port */
  holder(port) {
    return this.hall.recorded().find((seat) => seat.port === port && !seat.isAway);
  }

  /** @type {(work: () => unknown) => Promise<unknown>} does this after what was begun before it */
  inTurn(work) {
    const done = this.last.then(work);
    this.last = done.catch(() => {});
    return done;
  }

  /** @type {(port: SerialPort, heard: Answered) => Promise<void>} gives a board to the game that has it, or to a new one */
  async place(port, heard) {
    const { seat, asks } = this.whose(port, heard);
    if (seat && seat.isAway) await this.goOn(seat, port, heard);
    else if (seat) await this.askWhetherSame(seat, port, heard);
    else if (asks.length > 0) await this.askWhich(port, heard);
    else await this.addNew(port, heard);
  }

  /** @type {(seat: Seat) => Promise<void>} chooses its device again; if another game's board is on it, that game goes on */
  async choose(seat) {
    const port = await this.chosen();
    if (port) await this.recordFrom(port, seat);
  }

  /** @type {(port: SerialPort, seat: Seat) => Promise<void>} */
  async recordFrom(port, seat) {
    const holder = this.holder(port);
    if (holder && holder !== seat) throw new Complaint(message('port.recorded_from', { board: holder.id }));
    await this.hear(port, (heard) => this.giveTo(seat, port, heard));
  }

  /** @type {(seat: Seat, port: SerialPort, heard: Answered) => Promise<void>} or to the game that has its number */
  async giveTo(seat, port, heard) {
    const owner = heard.number && heard.number !== seat.serial ? this.hall.seatOf(heard.number, seat) : null;
    if (owner && !owner.isAway) {
      await this.close(heard);
      const from = message('port.recorded_from', { board: owner.id });
      throw new Complaint(message('port.is_another_board', { number: heard.number, from }));
    }
    await this.goOn(owner || seat, port, heard);
  }

  /** @type {(seat: Seat, port: SerialPort, heard: Answered) => Promise<void>} */
  async goOn(seat, port, heard) {
    this.show(seat);
    await this.record(seat, port, heard);
  }

  /** @type {(seat: Seat, number: string) => void} if it has a game already, and no move was made here, that game goes on */
  numbered(seat, number) {
    const other = this.hall.seatOf(number, seat);
    if (!other || !other.isAway || seat.hasMoves) {
      this.exchanges.numbered(seat);
      return;
    }
    const port = /** @type {SerialPort} */ (seat.port);
    const left = seat.recording.cable.leave();
    seat.port = null;
    const isShown = window.location.hash === `#${seat.id}`;
    /** @type {(error: Error) => void} */
    const fails = (error) => this.hall.says(message('port.not_taken_over', { why: error.message }), other.id);
    this.record(other, port, left).catch(fails);
    this.hall.remove(seat).catch(fails);
    if (isShown) this.show(other);
  }

  /** @type {(port: SerialPort, heard: Heard) => void} a board has come by itself that isn't known to be an awaited one */
  came(port, heard) {
    const { seat, asks } = this.whose(port, heard);
    if (seat || asks.length === 0) return;
    this.hall.says(message('port.unclear'));
    this.askWhich(port, heard).catch((error) => this.hall.says(error.message));
  }

  // What is asked.

  /** Whose board is on a device: a seat's, or perhaps one of those of which somebody must say so; else it isn't there yet.
   * @type {(port: SerialPort, heard: Answered) => { seat: Recorded | null, asks: Recorded[] }} */
  whose(port, { number, isSilent }) {
    const seats = this.hall.recorded();
    const away = seats.filter(({ isAway, serial }) => isAway && !(serial && number));
    const seat = seats.find(({ serial }) => serial && serial === number) || away.find((one) => one.port === port) || null;
    return { seat, asks: seat || isSilent ? [] : away };
  }

  /** @type {(port: SerialPort, use: (heard: Answered) => unknown) => Promise<void>} asks the board on it who it is */
  async hear(port, use) {
    this.asking += 1;
    this.hall.changed();
    try {
      await this.ports.withBoard(port, (heard) => use(heard || NO_ANSWER));
    } finally {
      this.asking -= 1;
      this.hall.changed();
    }
  }

  /** @type {(heard: Pick<Answered, 'connection'>) => Promise<void>} */
  async close({ connection }) {
    if (connection) await connection.close();
  }

  /** @type {(port: SerialPort, heard: Answered) => Promise<void>} the number doesn't say whether it is an awaited one */
  async askWhich(port, heard) {
    await this.close(heard);
    const { asks } = this.whose(port, heard);
    const { number } = heard;
    /** @type {Choice[]} */
    const boards = asks.map((seat) => [message('label.board', { board: seat.id }), () => this.recordFrom(port, seat)]);
    this.ask(number ? message('ask.new_number', { number }) : message('ask.no_number'), [
      ...boards,
      [message('label.new_board'), () => this.addAnew(port)],
    ]);
  }

  /** @type {(seat: Seat, port: SerialPort, heard: Answered) => Promise<void>} its number is recorded from another device */
  async askWhetherSame(seat, port, heard) {
    await this.close(heard);
    this.ask(message('ask.same_number', { board: seat.id, number: heard.number }), [
      [message('label.show_board', { board: seat.id }), async () => this.show(seat)],
      [message('label.another_board'), () => this.addAnew(port)],
    ]);
  }

  /** @type {(text: Words, answers: Choice[]) => void} a question, which each answer ends */
  ask(text, answers) {
    /** @type {(done: () => Promise<unknown>) => () => void} */
    const answered = (done) => () => {
      this.hall.notice('which', '');
      done().catch((error) => this.hall.notice('which', message('join.capital', { text: toldOf(error) }), [], true));
    };
    this.hall.notice('which', text, answers.map(([label, done]) => [label, answered(done)]));
  }

  // What is done.

  /** @type {(seat: Seat, port: SerialPort, heard: Pick<Answered, 'connection' | 'came'>) => Promise<void>} */
  async record(seat, port, { connection, came }) {
    if (connection) seat.take(port, connection, came);
    else await seat.plug(port);
    this.hall.notice('which', '');
    this.hall.says(message('port.goes_on'), seat.id);
    if (seat.session) seat.session.record.knows({ info: port.getInfo() });
  }

  /** @type {(port: SerialPort) => Promise<void>} */
  async addAnew(port) {
    await this.hear(port, (heard) => this.inTurn(() => this.addNew(port, heard)));
  }

  /** @type {(port: SerialPort, heard: Pick<Answered, 'connection' | 'came'>) => Promise<void>} */
  async addNew(port, { connection, came }) {
    const seat = await this.hall.addSeat(port.getInfo());
    if (!seat) await this.close({ connection });
    else if (connection) seat.take(port, connection, came);
    else await seat.plug(port);
  }

  /** @type {(seat: Seat, text?: Words) => void} */
  show(seat, text = '') {
    if (text) this.hall.says(text, seat.id);
    window.location.hash = `#${seat.id}`;
  }
}
