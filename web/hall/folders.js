// The folder that also keeps the games: chosen once, and asked for again when the page is opened anew.

import { ROUND, freeName } from '../game/names.js';
import { Front } from '../kept/capture.js';
import { Folder } from '../kept/folder.js';
import { linked, message } from '../../live/show/page/message.js';

const MODE = { mode: 'readwrite' };
const AWAITED = 1.0; // seconds that a file waits until its text is kept in the browser
const GATHERED = 0.2; // seconds in which changes are gathered into one text of all games

export class Folders {
  /** @param {Hall} hall */
  constructor(hall) {
    this.hall = hall;
    this.folder = /** @type {Folder | null} */ (null);
    this.kept = /** @type {FileSystemDirectoryHandle | null} */ (null); // the earlier folder, if the browser wants to ask about it
    this.failed = /** @type {Words} */ (''); // what can't be written in it
    this.isPersistent = false;
    this.timer = /** @type {Timer | null} */ (null);
    this.lastRound = /** @type {Promise<unknown>} */ (Promise.resolve()); // ends when the last text of all games is waiting to be written
    /** @type {Promise<unknown>} */
    this.lastBefore = Promise.resolve(); // ends when the last capture as it was before is waiting to be written
  }

  /** Goes on with the earlier folder, if the browser allows it. */
  async begin() {
    const handle = await this.hall.database.setting('folder');
    if (!handle || !handle.queryPermission) return;
    if ((await handle.queryPermission(MODE)) === 'granted') {
      await this.use(handle);
      return;
    }
    this.kept = handle;
    const goesOn = () => this.goOn().catch((error) => this.hall.says(error.message));
    const folder = handle.name;
    this.hall.notice('folder', message('filed.ask_again', { folder }), [[message('label.write_to', { folder }), goesOn]]);
  }

  async goOn() {
    const kept = /** @type {FileSystemDirectoryHandle} */ (this.kept);
    if ((await kept.requestPermission(MODE)) === 'granted') await this.use(kept);
    else this.asks(message('filed.not_let', { folder: kept.name }));
  }

  /** @type {(text: Words, name?: string, isAlarm?: boolean) => void} a notice with the button that lets somebody choose a folder */
  asks(text, name = 'folder', isAlarm = false) {
    const choose = () => this.choose().catch((error) => this.asks(message('filed.unusable', { why: error.message || error.name })));
    this.hall.notice(name, text, text ? [[message('label.choose_folder'), choose]] : [], isAlarm);
  }

  /** Lets somebody choose one. */
  async choose() {
    if (!window.showDirectoryPicker) {
      this.hall.notice('folder', message('filed.no_folders'));
      return;
    }
    const handle = await this.pick();
    if (!handle) return;
    await this.use(handle);
    await this.hall.database.set('folder', handle).catch(() => {}); // else it is chosen again when the page is opened anew
  }

  /** The chosen folder, which this page may write to; null if somebody has pressed Cancel, or Don't Allow. */
  async pick() {
    try {
      return await window.showDirectoryPicker({ id: 'dgt-recorder', ...MODE });
    } catch (error) {
      if (error.name !== 'AbortError') throw error;
      this.asks(this.folder ? message('filed.as_before', { folder: this.folder.name }) : message('filed.none_given'));
      return null;
    }
  }

  /** @type {(handle: FileSystemDirectoryHandle) => Promise<void>} */
  async use(handle) {
    const before = await this.hall.database.setting('round').catch(() => null); // the disk is full
    /** @type {Folder} */
    const folder = new Folder(this.hall.loop, handle, {
      trouble: (text) => this.trouble(folder, text),
      says: (text) => this.hall.says(text),
    });
    folder.before.set(`${ROUND}.pgn`, before || []);
    for (const { filed, texts } of this.hall.recorded().flatMap((seat) => [seat.game, ...seat.finished])) {
      if (filed && filed.folder === folder.name) folder.before.set(`${filed.name}.pgn`, texts || []);
    }
    for (const seat of this.hall.recorded()) await this.takeUp(seat, folder);
    if (this.folder) this.folder.leave();
    this.folder = folder;
    this.kept = null;
    this.failed = '';
    this.hall.notice('files', '');
    this.hall.notice('folder', '');
    this.hall.notice('persist', '');
    this.hall.says(message('filed.at_each_move', { folder: handle.name }));
    for (const seat of this.hall.seated()) {
      seat.finished.forEach((game) => this.finishes(game));
      this.placed(seat);
    }
    this.hall.changed();
  }

  /** The folder's capture of a game has more than the browser had kept of it, if its disk was full: the game gets that.
   * @type {(seat: Recorded, folder: Folder) => Promise<void>} */
  async takeUp({ session }, folder) {
    const { filed } = session.record.game;
    if (!filed || filed.folder !== folder.name) return;
    const size = await folder.sizeOf(`${filed.name}.dgt`).catch(() => 0);
    if (size <= session.playing.opened) return;
    const bytes = await folder.bytesOf(`${filed.name}.dgt`).catch(() => null);
    const times = await folder.textOf(`${filed.name}.times`).catch(() => null);
    if (bytes) await session.takeUp(bytes, times || '', `${filed.name}.dgt`);
  }

  /** @type {(folder: Folder | null, text: Words) => void} empty if all is written again; a folder that was left alarms nobody */
  trouble(folder, text) {
    if (folder !== this.folder) return;
    this.failed = text;
    this.hall.says(text ? message('filed.tried_again', { trouble: text }) : message('filed.written_again'));
    this.asks(text ? message('filed.put_right', { trouble: text }) : '', 'files', true);
    this.hall.changed();
  }

  /** @type {(words: Words) => Words} what the page does, with where the files are */
  standing(words) {
    if (this.failed) return linked('semicolon', [words, message('standing.not_written')]);
    const where = this.folder ? message('standing.in_folder', { folder: this.folder.name }) : message('standing.in_browser');
    return linked('comma', [words, where]);
  }

  /** @type {(seat: Seat) => void} the text of a board's game has changed */
  placed(seat) {
    if (!seat.isWritten || !this.folder || !seat.pgn) return;
    seat.wantsFiles = true;
    if (!seat.isFiling) this.orTrouble(this.file(/** @type {Recorded} */ (seat)));
    this.round();
  }

  /** @type {(filing: Promise<unknown>) => Promise<unknown>} what goes wrong before a file can wait is the folder's trouble too */
  orTrouble(filing) {
    const { folder } = this;
    return filing.catch((error) => this.trouble(folder, error.message || error.name));
  }

  /** @type {(seat: Recorded) => Promise<void>} writes a game, and again if its text has changed meanwhile, or another folder was chosen */
  async file(seat) {
    seat.isFiling = true;
    try {
      while (seat.wantsFiles) {
        seat.wantsFiles = false;
        const folder = /** @type {Folder} */ (this.folder);
        const earlier = await this.nameFiles(seat, folder);
        await this.lastBefore;
        const [name, text, times] = [`${seat.name}.pgn`, seat.pgn, seat.session.times.all];
        folder.put(`${seat.name}.dgt`, new Front(seat.session.capture));
        await this.soonKept(seat.session.record.keepTexts([...folder.textsOf(name), text]));
        folder.put(name, text);
        await seat.session.times.write(); // so that the folder never has lines that the browser lacks
        this.putTimes(folder, name, times);
        if (earlier) folder.rename(earlier, seat.name);
      }
    } finally {
      seat.isFiling = false;
    }
  }

  /** Files that aren't its own are left alone: the game gets another name. Returns the name that its files have had, if it is another.
   * @type {(seat: Recorded, folder: Folder) => Promise<string>} */
  async nameFiles(seat, folder) {
    const { filed } = seat.game;
    const earlier = filed && filed.folder === folder.name ? filed.name : '';
    if (earlier === seat.name) return '';
    const name = await this.free(seat.name, folder);
    await seat.edit({ name, filed: { folder: folder.name, name } });
    return earlier;
  }

  /** @type {(folder: Folder, name: string, times: string) => void} beside the file of this name, if there are any */
  putTimes(folder, name, times) {
    if (times) folder.put(name.replace(/(?:pgn|dgt)$/, 'times'), times);
  }

  /** @type {(game: Finished) => void} */
  finishes(game) {
    this.orTrouble(this.finished(game));
  }

  /** @type {(game: Finished) => Promise<void>} writes a game that is over and no longer recorded */
  async finished(game) {
    const { folder } = this;
    if (!folder || !game.pgn) return;
    const { filed } = game;
    if (!filed || filed.folder !== folder.name || filed.name !== game.name) {
      game.name = await this.free(game.name, folder);
      game.filed = { folder: folder.name, name: game.name };
      const { pgn, bytes, times, ...kept } = game;
      await this.hall.database.putGame(kept).catch(() => {}); // its files are written all the same
    }
    folder.put(`${game.name}.dgt`, game.bytes);
    folder.put(`${game.name}.pgn`, game.pgn);
    this.putTimes(folder, `${game.name}.pgn`, game.times);
  }

  /** The name, or another one if the folder has files of this name: they aren't this game's, and are left alone.
   * @type {(wanted: string, folder: Folder) => Promise<string>} */
  async free(wanted, folder) {
    let name = wanted;
    const taken = this.hall.names().filter((other) => other !== wanted);
    while ((await folder.has(`${name}.pgn`)) || (await folder.has(`${name}.dgt`)) || (await folder.has(`${name}.times`))) {
      taken.push(name);
      name = freeName(wanted, taken);
    }
    if (name !== wanted) this.hall.says(message('filed.name_taken', { wanted, name }));
    return name;
  }

  /** @type {(given: Before) => void} keeps a capture as it was before plies were taken off, before the new one is written */
  keepsBefore(given) {
    const keeping = this.keepBefore(given);
    this.lastBefore = Promise.allSettled([this.lastBefore, keeping]);
    this.orTrouble(keeping);
  }

  /** @type {(given: Before) => Promise<void>} */
  async keepBefore({ name, bytes, times }) {
    const { folder } = this;
    if (!folder) return;
    const kept = await folder.freeBefore(name);
    folder.put(kept, bytes);
    this.putTimes(folder, kept, times);
  }

  /** The text of all games has changed. */
  round() {
    if (!this.folder || this.timer) return;
    this.timer = this.hall.loop.after(GATHERED, () => {
      this.timer = null;
      const put = () => this.orTrouble(this.putRound(/** @type {Folder} */ (this.folder)));
      this.lastRound = this.lastRound.then(put);
    });
  }

  /** @type {(folder: Folder) => Promise<void>} first it is kept: so the page knows it again, whenever its tab is killed */
  async putRound(folder) {
    const name = `${ROUND}.pgn`;
    const text = this.hall.round();
    await this.soonKept(this.hall.database.set('round', [...folder.textsOf(name), text]));
    folder.put(name, text);
  }

  /** @type {(keeping: Promise<unknown>) => Promise<unknown>} but not for long: the folder is written whatever the browser can keep */
  soonKept(keeping) {
    return Promise.race([keeping.catch(() => {}), new Promise((done) => this.hall.loop.after(AWAITED, () => done(null)))]);
  }

  /** Asks the browser to keep what is stored. If it doesn't promise that, says what that means. */
  async persist() {
    if (this.isPersistent || !navigator.storage || !navigator.storage.persist) return;
    this.isPersistent = await navigator.storage.persist();
    if (this.isPersistent || this.folder || this.kept) return;
    this.asks(message('filed.may_be_deleted'), 'persist');
  }
}
