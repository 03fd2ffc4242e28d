// All boards of the page: what is kept of them, their devices, their files.

import { Program } from '../child/program.js';
import { dayOf, fileName, freeName, nameOfPlayers } from '../game/names.js';
import { UNKNOWN, optionsOf, withTag, written } from '../game/options.js';
import { Database } from '../kept/database.js';
import { Loop } from '../run/loop.js';
import { linked, message, plural } from '../../live/show/page/message.js';
import { Devices } from './devices.js';
import { Folders } from './folders.js';
import { OF_ALL, Rounds, byRound } from './rounds.js';
import { save } from './saving.js';
import { Seat, Shown } from './seat.js';

/** @typedef {() => void} Release */

/** @typedef {object} Hears
 * @property {(isNews: boolean, number: number | null) => void} changed of a board if there is a number
 * @property {(text: Words, number: number | null) => void} says
 * @property {(name: string, text: Words, buttons?: Button[], isAlarm?: boolean) => void} notice
 * @property {() => void} newRound somebody wants one
 * @property {(number: number) => void} names somebody wants to change the names of a board */

const AGAIN = 5.0; // seconds until a database that can't be opened is tried again

export class Hall {
  /** @param {string} code @param {string} module @param {Hears} hears */
  constructor(code, module, hears) {
    this.hears = hears;
    this.loop = new Loop();
    this.program = new Program(code, module); // attends the boards
    this.calls = new Program(code, module); // answers calls that end, in a worker of its own, so that they hold up no board
    /** @type {Database} */
    this.database; // once it is open
    this.seats = /** @type {Map<number, Seat | Shown>} */ (new Map()); // by their numbers
    this.elsewhere = /** @type {Set<number>} */ (new Set()); // boards that another tab records
    this.isReady = false;
    this.wasUnsaved = false; // what the boards send couldn't be kept
    this.folders = new Folders(this);
    this.devices = new Devices(this);
    this.rounds = new Rounds(this);
  }

  /** Opens what is kept, and goes on with it. If that can't be opened, it is tried again. */
  async begin() {
    try {
      this.database = await Database.open();
    } catch (error) {
      this.notice('database', message('keep.nothing', { why: error.message }), [], true);
      this.isReady = true;
      this.loop.after(AGAIN, () => this.begin());
      return;
    }
    this.isReady = false;
    this.notice('database', '');
    this.database.remembers = () => this.remembered();
    this.rounds.given = (await this.database.setting('given')) || {};
    await this.seatAll();
    this.rounds.look();
    await this.devices.ports.begin();
    await this.folders.begin();
    this.isReady = true;
    this.changed();
  }

  /** @type {() => Remembered} what the database must have when it was lost and is opened again, besides what is being recorded */
  remembered() {
    const records = this.recorded().map(({ session }) => session.record);
    const finished = this.recorded().flatMap((seat) => seat.finished);
    /** @type {Remembered['settings']} */
    const folder = this.folders.folder ? [{ name: 'folder', value: this.folders.folder.handle }] : [];
    return {
      boards: records.map(({ board }) => board),
      games: [...records.map(({ game }) => game), ...finished.map(({ pgn, bytes, times, ...game }) => game)],
      captures: finished.map(({ id, bytes }) => ({ game: id, number: 0, at: this.loop.now(), bytes: bytes.slice() })),
      times: finished.map(({ id, times }) => ({ game: id, number: 0, at: Date.now(), text: times })),
      settings: [{ name: 'given', value: this.rounds.given }, ...folder],
    };
  }

  /** @type {(text: Words, number?: number | null) => void} */
  says(text, number = null) {
    this.hears.says(text, number);
  }

  /** @type {(name: string, text: Words, buttons?: Button[], isAlarm?: boolean) => void} */
  notice(name, text, ...given) {
    this.hears.notice(name, text, ...given);
  }

  /** @type {(isNews?: boolean, number?: number | null) => void} of this board if its number is given; a move is news */
  changed(isNews = true, number = null) {
    if (this.isUnsaved !== this.wasUnsaved) this.tellUnsaved();
    this.hears.changed(isNews, number);
  }

  /** What the boards send can't be kept, or again. */
  tellUnsaved() {
    this.wasUnsaved = this.isUnsaved;
    /** @type {Button[]} */
    const buttons = [[message('label.save_all'), () => this.saveRound()]];
    this.notice('unsaved', this.wasUnsaved ? message('keep.boards_unkept') : '', buttons, true);
  }

  // Its boards.

  /** @type {() => Recorded[]} */
  recorded() {
    return /** @type {Recorded[]} */ ([...this.seats.values()].filter((seat) => seat instanceof Seat && seat.session));
  }

  /** @type {() => Seat[]} all seats but captures that are shown */
  seated() {
    return [...this.seats.values()].flatMap((seat) => (seat.isCapture ? [] : seat));
  }

  /** @type {(number: number) => View | null} what the card of a board shows; null if it isn't there, or shows nothing yet */
  view(number) {
    const seat = this.seats.get(number);
    return seat ? seat.show(this.loop.now()) : null;
  }

  /** @type {() => View[]} */
  views() {
    const now = this.loop.now();
    const seats = [...this.seats.values()].sort((one, other) => one.id - other.id);
    return seats.flatMap((seat) => seat.show(now) || []);
  }

  get event() {
    return this.rounds.given.Event || '';
  }

  /** @type {() => { words: Words, isAlarm: boolean, isLive: boolean }} */
  standing() {
    if (!this.isReady) return { words: message('standing.starting'), isAlarm: false, isLive: false };
    const open = this.recorded().filter((seat) => seat.session.cable.isOpen).length;
    const others = this.elsewhere.size > 0 ? [plural('standing.elsewhere', this.elsewhere.size)] : [];
    const front = open === 0 ? message('standing.nothing') : plural('standing.recording', open);
    const words = linked('semicolon', [front, ...others]);
    if (open === 0) return { words, isAlarm: false, isLive: false };
    const told = this.wasUnsaved ? linked('comma', [words, message('standing.not_kept')]) : this.folders.standing(words);
    return { words: told, isAlarm: Boolean(this.folders.failed) || this.wasUnsaved, isLive: true };
  }

  freeNumber() {
    let number = 1;
    while (this.seats.has(number) || this.elsewhere.has(number)) number += 1;
    return number;
  }

  names() {
    return [...this.seats.values()].flatMap((seat) => [seat.name, ...(seat.isCapture ? [] : seat.finished.map(({ name }) => name))]);
  }

  /** @type {(info: SerialPortInfo) => Promise<Seat | null>} a new board, with a new game; null if another tab records it */
  async addSeat(info) {
    const id = this.freeNumber();
    let options = optionsOf({ began: dayOf(new Date()) });
    for (const [name, typed] of Object.entries(this.rounds.given)) options = withTag(options, name, typed, UNKNOWN);
    const game = { board: id, name: freeName(`board ${id}`, this.names()), options, end: null, looks: [] };
    const board = { id, serial: '', info, game: 0 };
    await this.database.beginGame(board, game, []);
    const release = await this.takes(id);
    const seat = release && (await this.begins(board, release));
    this.says(message('board.records_game', { name: game.name }), id);
    this.folders.persist().catch(() => {}); // the notice about that comes with the next board
    return seat;
  }

  /** Records all boards that are kept. What is kept of them is read side by side; they begin in their order. */
  async seatAll() {
    const kept = await this.database.boards();
    const releases = await Promise.all(kept.map(({ id }) => this.takes(id)));
    const all = { boards: await this.database.boards(), games: await this.database.games() }; // now that no other tab changes them
    const seats = kept.flatMap((board, at) => (releases[at] ? this.seatOn(board, releases[at]) : []));
    const readings = seats.map((seat) => seat.read(all));
    readings.forEach((reading) => reading.catch(() => {})); // the seat that begins with it says why
    for (const seat of seats) await seat.begin(readings.shift()).catch((error) => seat.broke(error));
    this.changed();
  }

  /** What releases a board that this tab may record; else null, and it does so when the tab that records the board lets it go.
   * @type {(id: number) => Promise<Release | null>} */
  async takes(id) {
    const release = await this.lock(id, { ifAvailable: true });
    if (release) return release;
    this.elsewhere.add(id);
    this.notice('elsewhere', message('standing.other_tab'));
    this.lock(id, {}).then(async (later) => {
      this.elsewhere.delete(id);
      if (this.elsewhere.size === 0) this.notice('elsewhere', '');
      const kept = await this.database.board(id);
      if (!kept) return;
      await this.begins(kept, later);
      await this.devices.ports.look();
    });
    return null;
  }

  /** Asks for the lock of a board. What releases it, if this tab has it from now on; else null.
   * @type {(id: number, options: LockOptions) => Promise<Release | null>} */
  lock(id, options) {
    return new Promise((done, failed) => {
      /** @type {(lock: Lock | null) => Promise<void> | null} */
      const has = (lock) => {
        if (lock) return new Promise((release) => done(() => release()));
        done(null);
        return null;
      };
      navigator.locks.request(`dgt_recorder board ${id}`, options, has).catch(failed);
    });
  }

  /** @type {(board: Board, release: Release | null) => Promise<Seat>} */
  async begins(board, release) {
    const seat = this.seatOn(board, release);
    await seat.begin().catch((error) => seat.broke(error));
    this.changed();
    return seat;
  }

  /** @type {(board: Board, release: Release | null) => Seat} the seat of a board, which hasn't begun */
  seatOn(board, release) {
    const seat = new Seat(this, board, release);
    this.seats.set(board.id, seat);
    return seat;
  }

  /** @type {(seat: Seat, news: News) => void} what a session tells */
  hear(seat, news) {
    switch (news.kind) {
      case 'said':
        return this.says(news.text, seat.id);
      case 'changed':
        return this.changed(news.isNews, seat.id);
      case 'placed':
        this.folders.placed(seat);
        return this.rounds.look();
      case 'begun':
        if (seat.finished.includes(news.before) || news.before.filed) this.folders.finishes(news.before);
        return this.changed();
      case 'kept':
        return this.folders.keepsBefore(news.before);
      case 'numbered':
        return this.devices.numbered(seat, news.number);
      default:
        return this.devices.exchanges.back(seat);
    }
  }

  /** @type {(seat: Seat) => Promise<void>} */
  async stopOrGoOn(seat) {
    const { port, recording } = seat;
    if (!recording.cable.isStopped) recording.stop();
    else if (port) await seat.plug(port);
    else await this.devices.choose(seat);
  }

  /** @type {(seat: Seat | Shown) => Promise<void>} with its games; if the browser can't, the board is recorded as before */
  async remove(seat) {
    if (!seat.isCapture) await seat.remove();
    this.seats.delete(seat.id);
    if (!seat.isCapture) {
      if (seat.release) seat.release();
      this.folders.round();
    }
    this.changed();
  }

  /** @type {(fileName: string, content: Uint8Array) => Promise<Shown>} shows a capture as a board */
  async showCapture(fileName, content) {
    const shown = new Shown(this.calls, this.freeNumber(), fileName, content);
    await shown.read();
    this.seats.set(shown.id, shown);
    this.changed();
    return shown;
  }

  // What is edited.

  /** Takes what was typed for a tag. A tag that all boards share is set where nothing is there yet, too.
   * @type {(seat: Seat | Shown, name: string, typed: string) => Promise<void>} */
  async edit(seat, name, typed) {
    const players = () => nameOfPlayers(written(seat.options, 'White'), written(seat.options, 'Black'));
    const before = players();
    await seat.edit({ options: withTag(seat.options, name, typed, `${name} ${seat.id}`) });
    if (OF_ALL.includes(name) && !seat.isCapture) await this.rounds.share(seat, name, written(seat.options, name));
    const after = players();
    const isNamedSo = [fileName(before), `board ${seat.id}`].includes(seat.name.replace(/-[0-9]{1,4}$/, ''));
    if (after !== before && after && isNamedSo && !seat.isCapture) await this.rename(seat, after);
    this.rounds.look();
    this.changed();
  }

  /** @type {(seat: Seat | Shown, typed: string) => Promise<void>} its files have this name from now on */
  async rename(seat, typed) {
    const name = freeName(typed, this.names().filter((other) => other !== seat.name));
    if (name !== seat.name) await seat.edit({ name });
    this.changed();
  }

  // Its files.

  /** The texts of all games with moves, with an empty line between them. */
  round() {
    return byRound(this.rounds.games()).flatMap(({ pgn }) => (pgn ? `${pgn.trimEnd()}\n\n` : [])).join('');
  }

  async saveRound() {
    await Promise.allSettled(this.recorded().map((seat) => seat.text()));
    const text = this.round();
    this.notice('saved', text ? '' : message('failed.nothing_to_save'));
    if (text) save('round.pgn', text, 'application/vnd.chess-pgn');
  }

  get isRecording() {
    return this.recorded().some((seat) => seat.session.cable.isOpen);
  }

  /** Whether something that was shown would be lost with the page. */
  get isUnsaved() {
    return this.recorded().some((seat) => Boolean(seat.session.capture.trouble));
  }

  // What a seat reports and asks.

  /** @type {(name: string) => string} */
  nextName(name) {
    const match = /^(.*)-([0-9]{1,4})$/.exec(name);
    return freeName(match ? `${match[1]}-${Number(match[2]) + 1}` : `${name}-2`, this.names());
  }

  /** @type {(number: string, asks: Seat) => Recorded | null} */
  seatOf(number, asks) {
    return this.recorded().find((seat) => seat !== asks && seat.serial === number) || null;
  }
}
