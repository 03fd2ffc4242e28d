// A board's place on the page: its session under a guard. An error ends only the session, and it is begun again. And the place of a
// capture that is shown.

import { Session } from '../board/session.js';
import { mendOfOver, resting, standing, viewOf } from '../board/state.js';
import { ISNT_OVER } from '../game/alarms.js';
import { Course, gameOf, textOf } from '../game/course.js';
import { forfeitOf, isEmpty, wordsOfForfeit } from '../game/forfeits.js';
import { dayOf } from '../game/names.js';
import { ofTyping, optionsOf } from '../game/options.js';
import { withAdded } from '../game/times.js';
import { readAnswer, refuse } from '../game/typed.js';
import { Capture, spread } from '../kept/capture.js';
import { textOf as textOfTimes } from '../kept/times.js';
import { joined } from '../line/protocol.js';
import { Guard } from '../run/guard.js';
import { Complaint, isSame, linked, message } from '../../live/show/page/message.js';
import { lockedDevice, systemOf } from './devices.js';

const AGAIN = 5.0; // seconds until a session that an error has ended is begun again

/** A capture that is shown: its game, as the program reads it. Nothing of it is kept. */
export class Shown {
  /** @param {Program} program @param {number} id @param {string} fileName @param {Uint8Array} content */
  constructor(program, id, fileName, content) {
    this.program = program;
    this.id = id;
    this.fileName = fileName;
    this.content = content;
    this.options = optionsOf();
    this.name = fileName.replace(/\.dgt$/i, '');
    this.pgn = '';
    this.course = new Course();
    /** @type {true} */
    this.isCapture = true;
  }

  /** Throws an Error if no board has sent it. */
  async read() {
    const course = await gameOf(this.program, this.options, this.content);
    if (!course.placement) throw new Complaint(message('capture.of_no_board'));
    this.pgn = await textOf(this.program, this.options, this.content);
    this.course = course;
  }

  bytes() {
    return this.content;
  }

  async text() {
    return this.pgn;
  }

  show() {
    return viewOf(this.id, this, this.course, resting(message('state.capture', { file: this.fileName })));
  }

  /** @type {(changes: { options?: Partial<Options>, name?: string }) => Promise<void>} */
  async edit({ options, name }) {
    const before = this.options;
    if (name) this.name = name;
    this.options = { ...this.options, ...options };
    try {
      await this.read();
    } catch (error) {
      this.options = before;
      throw error;
    }
  }
}

export class Seat {
  /** @param {Hall} hall @param {Board} board @param {(() => void) | null} release */
  constructor(hall, board, release) {
    this.hall = hall;
    this.id = board.id;
    this.release = release; // lets another tab record it
    this.session = /** @type {Session | null} */ (null);
    /** @type {Guard} */
    this.guard; // of the session
    this.trouble = /** @type {Words} */ ('');
    this.port = /** @type {SerialPort | null} */ (null);
    this.view = /** @type {View | null} */ (null);
    /** @type {false} */
    this.isCapture = false;
    this.isFiling = false; // whether its files are being written; `wantsFiles`: whether to write them again after that
    this.wantsFiles = false;
    this.finished = /** @type {Finished[]} */ ([]); // games of this board that are over
  }

  /** Begins to record, from what the database has, which may be being read already; after an error, from the memory if the database lacks
   * something.
   * @type {(reading?: Promise<Kept> | null) => Promise<void>} */
  async begin(reading = null) {
    const guard = new Guard(this.hall.loop, (error) => this.broke(error));
    this.guard = guard;
    const { session } = this;
    this.record(guard, session && session.capture.isUnkept ? session.kept : await (reading || this.read()));
  }

  /** @type {(guard: Guard, kept: Kept) => void} nothing else has that any more, as a function of `begin` would */
  record(guard, kept) {
    guard.call(() => {
      this.session = new Session(this.hall, guard, kept, this);
      this.trouble = '';
      if (this.port) this.session.cable.begin(this.port).catch((error) => guard.fail(error));
    });
  }

  /** What the database has of its board and its game; `all` has all boards and games, if they were read already.
   * @type {(all?: { boards: Board[], games: Game[] } | null) => Promise<Kept>} */
  async read(all = null) {
    const { database } = this.hall;
    const { boards, games } = all || { boards: await database.boards(), games: await database.games() };
    const board = boards.find(({ id }) => id === this.id);
    const game = games.find(({ id }) => board && id === board.game);
    if (!board || !game) throw new Complaint(message('keep.game_is_gone'));
    const [capture, times] = await Promise.all([Capture.read(database, game.id), this.readTimes(game.id)]);
    await this.readFinished(games.filter((one) => one.board === this.id && one !== game));
    return { board, game, capture, times };
  }

  /** @type {(game: number) => Promise<Row[] | null>} null if they can't be read, which costs nothing else */
  readTimes(game) {
    return this.hall.database.times(game).catch(() => null);
  }

  /** @type {(games: Game[]) => Promise<void>} reads those of these games of its board that began today: they are over */
  async readFinished(games) {
    const { database, calls } = this.hall;
    const today = dayOf(new Date());
    const finished = /** @type {Finished[]} */ ([]);
    for (const game of games.filter(({ options }) => options.began === today)) {
      const capture = await Capture.read(database, game.id);
      const sent = capture.view(game.end === null ? capture.size : game.end);
      const times = textOfTimes((await this.readTimes(game.id)) || []);
      const pgn = await textOf(calls, game.options, sent, game.forfeit);
      if (!isEmpty(game.forfeit, pgn)) finished.push({ ...game, bytes: capture.view(), times, pgn });
    }
    this.finished = finished;
  }

  /** @type {(port: SerialPort, connection: SerialLine, came: Uint8Array[]) => void} goes on with an open connection, which has brought this */
  take(port, connection, came) {
    this.port = port;
    if (connection.closed) this.plug(port); // it is gone again
    else if (this.guard.ended) connection.close(); // its session is begun again, and opens it
    else this.guard.call(() => this.recording.cable.take(connection, came));
  }

  /** @type {(port: SerialPort) => Promise<void>} records from it */
  async plug(port) {
    this.port = port;
    if (this.session) this.guard.call(() => this.recording.cable.begin(port));
  }

  /** @type {(error: Error) => void} has ended the session */
  broke(error) {
    console.error(error);
    const why = error.message || String(error);
    const text = linked('stop', [message('state.not_recorded_why', { why }), message('failed.tried_again')]);
    if (!isSame(why, this.trouble)) this.tells({ kind: 'said', text });
    this.trouble = why;
    this.tells({ kind: 'changed', isNews: true });
    this.hall.loop.after(AGAIN, () => {
      if (this.hall.seats.get(this.id) === this) this.begin().catch((again) => this.broke(again));
    });
  }

  /** Removes it and its games from what is kept: it keeps nothing more. If the browser can't, it is recorded as before. */
  async remove() {
    const { session } = this;
    if (session) await session.keepsNothing(() => this.removeKept());
    else await this.removeKept();
  }

  async removeKept() {
    const { database } = this.hall;
    const games = (await database.games()).filter(({ board }) => board === this.id);
    await database.removeBoard(this.id, games.map(({ id }) => id));
    this.guard.end();
  }

  // Its board.

  /** Whether its board is awaited: its device isn't there. */
  get isWaiting() {
    if (this.session === null) return false;
    const { isOpen, isStopped, trouble } = this.session.cable;
    return !isOpen && !isStopped && !trouble;
  }

  /** Whether its device is there, and no board answers on it. */
  get isSilent() {
    return this.session !== null && this.session.cable.isOpen && this.session.presence.isSilent;
  }

  /** Whether it doesn't hear its board. */
  get isAway() {
    return this.session !== null && (!this.session.cable.isOpen || this.isSilent);
  }

  /** When its board was away last, and what tells it from others; null if it wasn't, or its game is over. */
  get returned() {
    const { course, isOver, presence } = this.recording;
    return presence.gap && !isOver ? { ...presence.gap, number: this.serial, placement: course.placement } : null;
  }

  get serial() {
    return this.session ? this.session.cable.number : '';
  }

  // Its game.

  /** The session, for what nobody asks before it is there. */
  get recording() {
    return /** @type {Session} */ (this.session);
  }

  get name() {
    return this.session ? this.session.name : '';
  }

  get game() {
    return this.recording.record.game;
  }

  get options() {
    return this.recording.options;
  }

  get pgn() {
    return this.recording.playing.text.pgn;
  }

  text() {
    return this.recording.playing.text.latest();
  }

  bytes() {
    return this.recording.capture.bytes();
  }

  get hasMoves() {
    return this.session !== null && this.session.playing.hasMoves;
  }

  /** Whether its game has something to write: moves, or a forfeit. */
  get isWritten() {
    return this.session !== null && (this.hasMoves || this.session.playing.forfeit !== '');
  }

  get isOver() {
    return this.recording.isOver;
  }

  /** Whether its game has moves and no result, and isn't over. */
  get isInPlay() {
    return this.hasMoves && !this.isOver && this.recording.course.result === '*';
  }

  /** What somebody must look at, in full; and whether the board seems to be turned round. */
  get asks() {
    const { playing, presence } = this.recording;
    return { looks: playing.alarms.looks.all, otherwise: playing.isPlayedOn ? ISNT_OVER : '', hint: presence.state.hint, fit: presence.state.asks };
  }

  /** The last game before the one that is on, if it has no result; else null. */
  get unended() {
    const last = this.finished[this.finished.length - 1];
    return last && /^\[Result "\*"\]$/m.test(last.pgn) && !forfeitOf(last.forfeit, last.pgn) ? last : null;
  }

  /** @type {() => Promise<Before[]>} what its board had sent each time before plies were taken off */
  async before() {
    const all = await this.hall.database.before();
    return all.filter(({ game }) => game === this.game.id);
  }

  /** @type {(changes: Partial<Omit<Game, 'options'>> & { options?: Partial<Options> }) => Promise<void>} */
  edit(changes) {
    return this.recording.edit(changes);
  }

  /** Gives a result to the game before, which is over without one: players set up the pieces before anybody has given it. Throws Refused if
   * the game can't have it.
   * @type {(game: Finished, outcome: string) => Promise<void>} */
  async giveResult(game, outcome) {
    const { calls, database, folders, loop } = this.hall;
    const sent = game.bytes.subarray(0, Number(game.end));
    const said = readAnswer('add', await calls.add(ofTyping(game.options), sent, outcome));
    const { put } = said;
    if (!put) throw refuse(said, outcome, '');
    const bytes = joined(sent, put, game.bytes.subarray(Number(game.end)));
    const end = sent.length + put.length;
    const text = await textOf(calls, game.options, bytes.subarray(0, end));
    const { pgn, bytes: before, times, ...kept } = game;
    const lines = withAdded(times, sent.length, put.length, bytes);
    await database.renew({ ...kept, end }, spread(bytes, loop.now()), { number: 0, at: Date.now(), text: lines }, null);
    Object.assign(game, { end, bytes, times: lines, pgn: text });
    folders.finishes(game);
    folders.round();
    const what = message('result.of', { result: outcome, name: game.name });
    this.tells({ kind: 'said', text: message('typed.added_by_hand', { what }) });
  }

  // What is shown.

  /** @type {(now: number) => View | null} what its card shows; the last view if a new one can't be made */
  show(now) {
    const { session } = this;
    if (!session) {
      const none = { options: optionsOf(), name: '' };
      return this.trouble ? viewOf(this.id, none, new Course(), this.standing(now)) : null;
    }
    const isRead = !session.playing.isOld || this.trouble || session.cable.trouble;
    if (this.view && !isRead) return this.view; // while a game is read anew, what was shown stays
    try {
      this.view = viewOf(this.id, session.record.game, session.course, this.standing(now));
    } catch (error) {
      console.error(error);
    }
    return this.view;
  }

  /** @type {(now: number) => Standing} */
  standing(now) {
    const { recording: session, trouble } = this; // there may be none while there is trouble
    const why = trouble || session.cable.trouble;
    if (why) {
      const mend = trouble ? '' : lockedDevice(systemOf(navigator));
      return { ...resting(message('state.not_recorded_why', { why })), alarm: true, mend };
    }
    const { capture, cable, course, isOver, next, playing, presence, room } = session;
    const looks = playing.alarms.looks.short;
    if (playing.forfeit && !capture.trouble) return resting(wordsOfForfeit(playing.forfeit), looks);
    if (isOver && !capture.trouble) {
      const mend = next.awaited || room.isFull || playing.isPlayedOn ? '' : mendOfOver(course);
      return resting(next.awaited ? message('state.over_set_up') : message('state.over'), looks, mend);
    }
    if (cable.isStopped) return resting(message('state.stopped'), looks);
    return standing(presence.state, now);
  }

  // What the session tells, and asks of the boards around it.

  /** @type {(news: News) => void} */
  tells(news) {
    if (news.kind === 'begun' && !isEmpty(news.before.forfeit, news.before.pgn)) this.finished.push(news.before);
    this.hall.hear(this, news);
  }

  /** @type {(name: string) => string} */
  nextName(name) {
    return this.hall.nextName(name);
  }

  /** The game before the one that is on; null if there is none. */
  get gameBefore() {
    const last = this.finished[this.finished.length - 1];
    return last ? { name: last.name, isUnended: this.unended !== null } : null;
  }

  /** @type {(number: string) => Owner | null} */
  owner(number) {
    const other = this.hall.seatOf(number, this);
    return other ? { name: message('round.board', { board: other.id }), hasMoves: other.hasMoves, isOver: other.isOver } : null;
  }

  /** @type {(number: string) => void} */
  takes(number) {
    const other = this.hall.seatOf(number, this);
    if (other) other.guard.call(() => other.session.loses());
  }

  /** @type {(number: string, bytes: Uint8Array) => boolean} */
  lends(number, bytes) {
    const other = this.hall.seatOf(number, this);
    if (!other || other.guard.ended) return false;
    other.guard.call(() => other.session.takeLent(bytes));
    return true;
  }
}
