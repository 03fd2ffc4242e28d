// The games of one board while it is recorded. What came is kept first, then reported. Its parts are the cable; how the program attends the
// board; the game that is on; how the board stands; what is typed; and how the next game begins.

import { ADDED, ASKED, BACK, BEGIN, BROUGHT, HEARD, LOOKED, OTHER, OVER, REOPENED, SUSPECT } from '../child/attended.js';
import { acknowledged, toldOfSameNumber } from '../game/alarms.js';
import { hasAlone } from '../game/course.js';
import { dayOf } from '../game/names.js';
import { ofLive } from '../game/options.js';
import { isOf, kept as foundIn } from '../game/times.js';
import { Refused } from '../game/typed.js';
import { Capture, DISK_FULL, LARGEST, spread, withMore } from '../kept/capture.js';
import { GameRecord } from '../kept/record.js';
import { Times } from '../kept/times.js';
import { joined } from '../line/protocol.js';
import { message } from '../../live/show/page/message.js';
import { Attending } from './attending.js';
import { Cable, mayTake } from './cable.js';
import { Hidden } from './hidden.js';
import { NextGame } from './next_game.js';
import { Playing } from './playing.js';
import { Presence } from './presence.js';
import { Room } from './room.js';
import { Typing } from './typing.js';

const TICK = 1.0; // seconds between two looks at what waits
const READ_SO = /** @type {(keyof Options)[]} */ (['rotated', 'first', 'recover']); // options by which a capture is read otherwise

export class Session {
  /** @param {Pick<Hall, 'calls' | 'program' | 'database'>} hall @param {Guard} guard @param {Kept} kept @param {Around} around */
  constructor(hall, guard, kept, around) {
    this.hall = hall;
    this.guard = guard;
    this.around = around;
    guard.opened(() => this.times.close()); // after the cable
    this.record = new GameRecord(hall.database, kept.board, kept.game, (text) => this.says(text));
    this.attending = new Attending(this);
    this.cable = new Cable(this, kept.board.serial || '');
    this.playing = new Playing(this);
    this.presence = new Presence(this);
    this.typing = new Typing(this);
    this.next = new NextGame(this);
    this.room = new Room(this);
    this.hidden = new Hidden(this);
    guard.opened(() => this.keepUnanswered());
    const { game, capture } = kept;
    this.takeGame(game, capture, new Times(this.record, guard, game, capture));
    this.times.open(kept.times, Boolean(kept.mayLack));
    guard.after(TICK, () => this.eachSecond());
    this.reread();
  }

  /** @type {(game: Game, capture: Capture, times: Times) => void} records this from now on */
  takeGame(game, capture, times) {
    this.record.game = game;
    capture.hearBy({
      kept: (count) => this.guard.call(() => this.attending.showing.isKept(count)),
      changed: () => this.guard.call(() => this.diskChanged()),
    });
    this.attending.take(capture, times);
    this.playing.take(capture.size);
    this.presence.away = this.guard.away();
    this.presence.asksNothing();
  }

  get capture() {
    return this.attending.capture;
  }

  get times() {
    return this.attending.times;
  }

  get name() {
    return this.record.name;
  }

  get options() {
    return this.record.game.options;
  }

  get course() {
    return this.playing.course;
  }

  get isOver() {
    return this.record.game.end !== null;
  }

  /** How often it has gone back. */
  get goneBack() {
    return this.record.game.goneBack || 0;
  }

  /** Where the last bytes end that somebody has typed; 0 if there are none. */
  get typedTo() {
    return this.record.game.typedTo || 0;
  }

  /** Where the game ended before plies were taken off it, if it stays over; else 0. */
  get overTo() {
    return this.record.game.overTo || 0;
  }

  /** What a session begins with, after this one, if the database may lack some of it. */
  get kept() {
    const { capture, times, record } = this;
    return { board: record.board, game: record.game, capture, times: times.rows, mayLack: true };
  }

  /** @type {(text: Words) => void} */
  says(text) {
    this.around.tells({ kind: 'said', text });
  }

  changed(isNews = true) {
    this.around.tells({ kind: 'changed', isNews });
  }

  /** Everything is read again: at the beginning, with other options, or from another capture. */
  reread() {
    this.playing.readAgain(this.attending.showing.known);
    this.next.readAgain();
    this.attending.begin();
    this.playing.text.want();
  }

  // What is done with an answer of the program.

  /** @type {(entry: Entry, answer: Answer) => void} at once: the game gets what its board has sent, and the board is asked */
  keeps({ at, now }, { kept, number, handling, other, asks }) {
    if (kept.length > 0) {
      this.cable.brings(kept, number);
      if (!this.cable.isLeft) this.takeSent(kept, at, now); // else another game has this board, and these bytes
    }
    if (handling) this.cable.handled(handling, other);
    if (handling === OTHER) this.attending.lend(other);
    if (asks && this.cable.write(new TextEncoder().encode(asks))) this.times.note(ASKED, asks.length, at);
  }

  /** As soon as its bytes are kept. `entry` is null if lines are only heard again.
   * @type {(entry: Entry | null, answer: Answer, hasLines: boolean) => void} */
  takes(entry, { end, looks, clockStopped, state }, hasLines) {
    if (end) this.playing.endsSoon(end);
    if (hasLines) this.hear();
    if (end) this.ends(end);
    if (looks.length > 0) this.playing.raises(looks);
    if (clockStopped !== null || (entry && entry.word === BEGIN)) this.presence.clockIs(Boolean(clockStopped));
    if (state && entry) this.presence.stands(state, entry);
  }

  hear() {
    const { showing } = this.attending;
    const { epoch } = showing;
    for (const line of showing.unheard()) {
      if (line.event.kind === 'fault') continue;
      this.next.hear(line);
      this.playing.hear(line);
    }
    if (epoch !== showing.epoch || this.guard.ended) return;
    const isNews = this.playing.heardAll();
    this.next.heardAll();
    this.changed(isNews);
  }

  /** @type {(end: End) => void} a game that is stored as over stays as it is */
  ends({ over, played, begins }) {
    const { playing } = this;
    playing.played = played || playing.played;
    if (this.isOver) {
      if (!playing.isOld) playing.tellPlayed();
    } else if (begins !== null) {
      this.guard.call(() => this.next.beginning.begin(begins));
    } else if (over) {
      playing.isOverSo(over);
    }
  }

  // What its board sends.

  /** @type {(bytes: Uint8Array, at: number, now: number, isBrought?: boolean) => void} `at` by the clock that counts on */
  takeSent(bytes, at, now, isBrought = false) {
    const room = LARGEST - this.capture.size;
    if (room <= 0) return; // it couldn't be shortened
    this.presence.isHeard(now);
    const taken = bytes.length > room ? bytes.slice(0, room) : bytes;
    this.capture.append(taken, now);
    if (!isBrought) this.times.note(HEARD, taken.length, at);
    this.room.close();
  }

  /** @type {(bytes: Uint8Array) => void} another game's cable has brought this, which is this board's */
  takeLent(bytes) {
    this.attending.inTurn(() => {
      const at = this.guard.counted();
      this.takeSent(bytes, at, this.guard.now(), true);
      this.attending.tellNow(BROUGHT, bytes, at);
    });
  }

  /** If an error ends the recording, what the program hasn't answered is kept. */
  keepUnanswered() {
    if (!this.guard.error) return;
    for (const bytes of this.attending.takeUnanswered()) {
      this.capture.append(bytes, this.guard.now());
      this.times.note(HEARD, bytes.length);
    }
  }

  diskChanged() {
    const { trouble, why } = this.capture;
    const room = trouble === DISK_FULL ? message('keep.make_room') : message('keep.is_there_room');
    this.says(trouble ? message('keep.in_memory', { trouble, why, room }) : message('keep.again'));
    this.changed();
  }

  eachSecond() {
    this.guard.after(TICK, () => this.eachSecond());
    if (this.capture.isUnkept) this.capture.write();
    if (this.record.isUnkept) this.record.keep();
    for (const part of [this.presence, this.next, this.room, this.hidden]) part.look();
    this.changed(false);
  }

  // What somebody must look at.

  /** @type {(others: number[]) => void} the boards with which the cable may have been exchanged; the program keeps the suspicions */
  suspect(others) {
    this.playing.alarms.suspect(others);
    for (const other of others) this.attending.tell(SUSPECT, other);
  }

  /** @type {(others: number[]) => void} the boards that have the same serial number */
  sharesNumber(others) {
    this.playing.tellLook(this.playing.alarms.add(toldOfSameNumber(others)));
  }

  acknowledge() {
    const { around, attending, cable, playing } = this;
    const owner = cable.other ? around.owner(cable.other) : null;
    const takes = cable.other && mayTake(owner, playing.hasMoves);
    let seen = acknowledged(playing.alarms.acknowledge());
    playing.raised = [];
    attending.tell(LOOKED);
    if (takes) {
      around.takes(cable.other);
      cable.takeOther();
      seen = message('look.acknowledged_and_taken', { seen, number: cable.number });
    }
    this.says(seen);
    playing.looksChanged();
    return seen;
  }

  /** Another game has its board from now on. So the program doesn't wait for that any more. */
  loses() {
    this.cable.loses();
    this.record.knows({ serial: '' });
    this.attending.takeTags();
    this.says(message('cable.taken_away'));
  }

  // Where the game ends.

  /** @type {(end: number, reason: Words) => void} */
  closeGame(end, reason) {
    this.record.changes({ end, looks: this.playing.alarms.looks.kept });
    this.attending.tellNow(OVER, end);
    this.says(message('over.is_over', { name: this.name, why: reason }));
    this.reread();
  }

  /** The game is not over any more. */
  async goOn() {
    const { attending, record } = this;
    record.game = { ...record.game, end: null, overTo: 0, played: 0 };
    this.playing.played = 0;
    this.reread();
    this.times.isNotOver();
    attending.tellNow(REOPENED);
    attending.tellNow(BACK);
    await this.times.write(); // before the game's record: the times would have an end that the game lacks
    await record.keep();
  }

  /** How many bytes of its capture give so many of its plies alone; null if those up to the last of them give more.
   * @type {(stays: number) => Promise<number | null>} */
  async endBehind(stays) {
    const { plies, settledAt } = this.course;
    const end = stays > 0 ? settledAt[stays - 1] + 1 : 0;
    return (await hasAlone(this.hall.calls, this.options, this.capture.view(end), plies.slice(0, stays))) ? end : null;
  }

  /** @type {(end: number, looks: Look[]) => Promise<void>} the game stays over; what came up to its earlier end counts no more */
  endWith(end, looks) {
    const { record } = this;
    record.game = { ...record.game, end, overTo: Math.max(Number(record.game.end), this.overTo), looks };
    this.reread();
    const done = record.keep();
    this.times.isNotOver();
    this.attending.tellNow(OVER, end);
    return done;
  }

  /** The game stays over, and ends with a result that somebody has given in the place of the kings': its capture has these bytes behind its
   * last ply, and then a dump of how the board stood at its earlier end.
   * @type {(cut: number, put: Uint8Array, stood: Uint8Array) => Promise<void>} */
  async endsAnew(cut, put, stood) {
    const bytes = this.capture.view();
    const end = Number(this.record.game.end);
    const typedTo = cut + put.length;
    const overTo = typedTo + stood.length + Math.max(0, this.overTo - end);
    const content = joined(bytes.subarray(0, cut), put, stood, bytes.subarray(end));
    await this.renew(content, true, { end: typedTo, typedTo, overTo }, (game, capture) => this.times.upTo(cut, game, capture, put.length));
  }

  /** The next game begins with this. It has the same options, unless others are given. The game before it has ended so.
   * @type {(content: Uint8Array, wanted?: Wanted, before?: Game) => Promise<void>} */
  async begin(content, { options: given = this.options, name: wanted = '' } = {}, before = this.record.game) {
    const { around, guard, hall, record } = this;
    const pgn = await this.playing.text.upTo(before.end);
    const options = { ...given, began: dayOf(new Date()) };
    const name = wanted || around.nextName(before.name);
    const begun = { board: record.board.id, name, options, end: null, looks: this.playing.alarms.looks.carried };
    const chunks = content.length > 0 ? spread(content, guard.now()) : [];
    const board = { ...record.board, next: null };
    const game = { ...begun, id: await hall.database.beginGame(board, begun, chunks, before) };
    record.board = { ...board, game: game.id };
    if (!this.isOver) this.times.note(OVER, before.end);
    around.tells({ kind: 'begun', before: { ...before, pgn, bytes: this.capture.view(), times: this.times.all } });
    this.times.close();
    const capture = new Capture(hall.database, game.id, chunks);
    this.takeGame(game, capture, this.times.next(game, capture));
    this.times.goOn();
    this.playing.text.pgn = '';
    this.reread();
  }

  // What is put into the capture.

  /** @type {(put: Uint8Array) => Promise<void>} adds this by hand */
  async add(put) {
    this.capture.append(put, this.guard.now());
    this.attending.tellNow(ADDED, put);
    const isKept = this.record.changes({ typedTo: this.capture.size });
    await Promise.all([this.capture.write(), isKept]);
  }

  /** @type {(kind: string) => Promise<void>} the game is forfeited so from now on, or is played after all */
  async forfeits(kind) {
    if (kind === (this.record.game.forfeit || '')) return;
    this.record.game = { ...this.record.game, forfeit: kind };
    this.playing.text.want();
    this.changed();
    await this.record.keep();
  }

  /** The capture is this from now on; the old one is kept beside it, if wanted. Up to `typedTo` it is what was typed. `timesOf` makes its
   * times. If the game goes on with it, plies were taken off.
   * @type {(content: Uint8Array, keepsBefore: boolean, changes?: Partial<Game>, timesOf?: TimesOf) => Promise<void>} */
  async renew(content, keepsBefore, changes = {}, timesOf = /** @type {TimesOf} */ ((game, capture, words) => this.times.next(game, capture, 0, words))) {
    const { capture: old, guard, hall, record, times: before } = this;
    await before.hold();
    const chunks = spread(content, guard.now());
    const kept = { game: record.game.id, name: this.name, at: guard.now(), bytes: old.bytes(), times: before.all };
    const hasBefore = record.game.hasBefore || keepsBefore;
    const game = { ...record.game, hasBefore, typedTo: 0, overTo: 0, played: 0, ...changes };
    const capture = new Capture(hall.database, game.id, chunks);
    const times = timesOf(game, capture, changes.end === null ? [BACK, REOPENED] : []);
    const { row } = times;
    try {
      await hall.database.renew(game, chunks, row, keepsBefore ? kept : null);
    } catch (error) {
      before.goOn();
      throw error;
    }
    if (keepsBefore) this.around.tells({ kind: 'kept', before: kept });
    times.goOnFrom(row, before);
    capture.trouble = old.trouble;
    this.takeGame(game, capture, times);
    this.reread();
  }

  /** Puts in what a longer capture of this game has beyond what was kept when the game was opened, with its times.
   * @type {(longer: Uint8Array, lines: string, file: string) => Promise<void>} */
  async takeUp(longer, lines, file) {
    await this.typing.exclusively(async () => {
      const { opened } = this.playing;
      const content = withMore(this.capture.view(), opened, longer);
      if (!content || content.length > LARGEST) return;
      const more = this.typedTo > opened ? content.length - this.capture.size : 0;
      const isOfLonger = isOf(foundIn(lines), longer);
      /** @type {TimesOf} */
      const timesOf = (game, capture) =>
        isOfLonger ? this.times.upTo(longer.length, game, capture, 0, lines) : this.times.upTo(opened, game, capture);
      await this.renew(content, false, { typedTo: this.typedTo + more, overTo: this.overTo }, timesOf);
      this.says(message('filed.has_more', { file, name: this.name }));
    });
  }

  // What is edited.

  /** Takes other options. Names change only tags; how the capture is read changes the game.
   * @type {(changes: Partial<Omit<Game, 'options'>> & { options?: Partial<Options> }) => Promise<void>} */
  async edit(changes) {
    const before = this.options;
    const options = { ...before, ...changes.options };
    if (options.rotated !== before.rotated && this.playing.hasMoves) throw new Refused(message('options.lies_as_before'));
    const isRead = READ_SO.some((name) => options[name] !== before[name]);
    const isTagged = ofLive(options).join('\n') !== ofLive(before).join('\n');
    this.record.changes({ ...changes, options });
    if (isRead) {
      this.attending.readAnew();
      this.reread();
    } else {
      if (isTagged) this.attending.takeTags();
      this.playing.text.want();
    }
    this.changed();
  }

  /** @type {(work: () => Promise<unknown>) => Promise<void>} while this is done, which ends the recording unless it fails */
  async keepsNothing(work) {
    await this.typing.exclusively(async () => {
      await this.times.hold();
      await work().catch((error) => {
        this.times.goOn();
        throw error;
      });
    });
  }

  stop() {
    this.cable.isStopped = true;
    this.cable.close();
    this.says(message('board.stopped', { name: this.name }));
    this.changed();
  }
}
