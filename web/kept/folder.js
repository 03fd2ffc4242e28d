// The folder that somebody has chosen. Each file is written as another one, and moved to its place when it is whole. A file that can't be
// written holds up those of its game that tell of it, and no other ones. What somebody has edited by hand is kept.

import { otherName } from '../game/names.js';
import { NOTHING, isEarlier as areEarlierTimes } from '../game/times.js';
import { message } from '../../live/show/page/message.js';
import { Front } from './capture.js';

/** The tag pairs but the result's, the result that they give, the words of the moves, and the result after them.
 * @type {(pgn: string) => { tags: string, named: string, words: string[], result: string }} */
function partsOf(pgn) {
  const end = pgn.indexOf('\n\n');
  const lines = pgn.slice(0, Math.max(0, end)).split('\n');
  const words = pgn.slice(end + 2).split(/\s+/).filter((word) => word);
  const [, named = '*'] = /^\[Result "(.*)"\]$/m.exec(pgn) || [];
  const tags = lines.filter((line) => !line.startsWith('[Result ')).join('\n');
  return { tags, named, words: words.slice(0, -1), result: words[words.length - 1] };
}

/** Whether a text found instead of this one is an earlier text of the same game, with fewer moves and no result: replacing it loses nobody's
 * work.
 * @type {(found: string, now: string) => boolean} */
export function isEarlier(found, now) {
  if (!found) return true;
  const [before, after] = [partsOf(found), partsOf(now)];
  const isFront = before.tags === after.tags && before.words.every((word, at) => word === after.words[at]);
  if (!isFront || before.named !== before.result) return false;
  return before.words.length < after.words.length ? before.result === '*' : before.result === after.result;
}

/** @type {(name: string, number: number) => string} `game.edited.pgn`, `game.edited-2.pgn` */
export const editedName = (name, number) => name.replace(/\.pgn$/, number === 1 ? '.edited.pgn' : `.edited-${number}.pgn`);

/** @typedef {{ [ending: string]: number }} Places
 * @typedef {{ name: string, isRemoved: boolean, game: string | null, place: number }} Placed */

const FORM = /^(.+?)(\.before-\d+)?\.(dgt|pgn|times)$/;
/** @type {Places} */
const PLACES = { dgt: 2, pgn: 3, times: 4 }; // the capture from before a way back is first
/** @type {Places} */
const REMOVED = { dgt: 6, pgn: 5, times: 5 }; // a text without its capture would be taken for another game's

/** The game to which a file belongs, and the file's place in the order. The game of any other file is null.
 * @type {(name: string, content: unknown) => { game: string | null, place: number }} */
function placeOf(name, content) {
  const [, game, before, ending] = FORM.exec(name) || [];
  if (!ending) return { game: null, place: 0 };
  if (before) return { game, place: ending === 'dgt' ? 0 : 1 };
  return { game, place: (content === null ? REMOVED : PLACES)[ending] };
}

/** The new names of games whose files under an earlier one are to be removed, Map { earlier: new }, after one more is renamed.
 * @type {(renamed: Map<string, string>, earlier: string, name: string) => Map<string, string>} */
export function renamedAgain(renamed, earlier, name) {
  /** @type {[earlier: string, now: string][]} */
  const others = [...renamed].map(([one, now]) => [one, now === earlier ? name : now]);
  return new Map([...others, [earlier, name]]);
}

/** The file that is written next, of those that wait, Map { name: content }, but for those that were tried; undefined if none may be. What a
 * game had under an earlier name is removed behind all that is written under its new one, `renamed` Map { earlier: new }.
 * @type {(waiting: Map<string, unknown>, tried: Map<string, unknown>, renamed: Map<string, string>) => string | undefined} */
export function nextFile(waiting, tried, renamed) {
  const places = [...waiting].map(([name, content]) => ({ name, isRemoved: content === null, ...placeOf(name, content) }));
  /** @type {(one: Placed, other: Placed) => boolean} */
  const isBefore = (one, other) => one.game === other.game && one.place < other.place;
  /** @type {(one: Placed, game: string | undefined) => boolean} */
  const isWritten = (one, game) => one.game === game && !one.isRemoved;
  /** @type {(one: Placed) => boolean} */
  const isHeld = (one) => {
    const { game } = one;
    return game !== null && places.some((other) => isBefore(other, one) || (one.isRemoved && isWritten(other, renamed.get(game))));
  };
  const next = places.find((one) => !tried.has(one.name) && !isHeld(one));
  return next && next.name;
}

/** @typedef {string | Uint8Array | Front | null} Content what a file is to have; null if it is to go */

const PART = 1 << 20; // bytes that are written at a time, since the browser copies them
const AGAIN = 5.0; // seconds until a file that couldn't be written is tried again

/** @type {(file: File) => string} how a file was left: whoever writes it changes that */
const stampOf = ({ size, lastModified }) => `${size} ${lastModified}`;

export class Folder {
  /** `hears` gets trouble(text) with what can't be written, empty once all is, until it is left; and says(text).
   * @param {Loop} loop
   * @param {FileSystemDirectoryHandle} handle
   * @param {{ trouble: (text: Words) => void, says: (text: Words) => void }} hears */
  constructor(loop, handle, hears) {
    this.loop = loop;
    this.handle = handle;
    this.hears = hears;
    this.written = /** @type {Map<string, Content>} */ (new Map()); // the last content of each file
    this.left = /** @type {Map<string, string>} */ (new Map()); // how this page has left each file that may be gone on with
    this.waiting = /** @type {Map<string, Content>} */ (new Map()); // the newest content of each file
    this.writing = /** @type {{ name: string, content: Content } | null} */ (null); // the file that is being written
    /** @type {Map<string, string>} */
    this.renamed = new Map(); // the new names of games whose files under an earlier one are to be removed
    this.before = /** @type {Map<string, string[]>} */ (new Map()); // texts of this page that a file may have had when the page was closed
    this.failed = /** @type {Words} */ ('');
    this.timer = /** @type {Timer | null} */ (null); // until what couldn't be written is tried again
    this.isLeft = false;
  }

  /** Nothing more is written here. */
  leave() {
    this.isLeft = true;
    this.waiting.clear();
    if (this.timer) this.timer.cancel();
  }

  get name() {
    return this.handle.name;
  }

  /** @type {(name: string) => Promise<boolean>} whether a file of this name is there */
  async has(name) {
    try {
      await this.handle.getFileHandle(name);
      return true;
    } catch (error) {
      return error.name !== 'NotFoundError';
    }
  }

  /** @type {(name: string, content: Content) => void} writes the file, now or soon; null removes it */
  put(name, content) {
    if (this.isLeft) return;
    this.waiting.set(name, content);
    this.write();
  }

  /** @type {(name: string) => string[]} the texts of this page that the file may have by now, or soon */
  textsOf(name) {
    const { written, writing, waiting } = this;
    const now = written.has(name) ? [written.get(name)] : this.before.get(name) || [];
    const soon = [writing && writing.name === name ? writing.content : null, waiting.get(name)];
    return /** @type {string[]} */ ([...now, ...soon.filter((text) => text)]);
  }

  /** @type {(earlier: string, name: string) => void} removes its files under the earlier name, once those under the new one are written */
  rename(earlier, name) {
    this.renamed = renamedAgain(this.renamed, earlier, name);
    for (const ending of ['pgn', 'dgt', 'times']) this.put(`${earlier}.${ending}`, null);
  }

  async write() {
    if (this.writing) return;
    const tried = /** @type {Map<string, Words>} */ (new Map()); // what can't be written, and why
    const next = () => nextFile(this.waiting, tried, this.renamed);
    for (let name = next(); name; name = next()) {
      const content = /** @type {Content} */ (this.waiting.get(name));
      this.waiting.delete(name);
      this.writing = { name, content };
      try {
        await this.writeOne(name, content);
      } catch (error) {
        tried.set(name, message('filed.unwritten', { file: name, folder: this.name, why: error.message || error.name }));
        if (!this.waiting.has(name)) this.waiting.set(name, content);
      }
    }
    this.writing = null;
    if (this.isLeft) return;
    const [failed = ''] = tried.values();
    const isNews = Boolean(failed) !== Boolean(this.failed);
    this.failed = failed;
    if (isNews) this.hears.trouble(failed);
    if (failed) this.tryAgain();
  }

  tryAgain() {
    if (this.timer) return;
    this.timer = this.loop.after(AGAIN, () => {
      this.timer = null;
      this.write();
    });
  }

  /** @type {(name: string, content: Content) => Promise<void>} */
  async writeOne(name, content) {
    if (content === null) {
      await this.handle.removeEntry(name).catch((error) => {
        if (error.name !== 'NotFoundError') throw error;
      });
      return;
    }
    if (name.endsWith('.pgn')) await this.keepEdited(name, /** @type {string} */ (content));
    if (name.endsWith('.dgt')) await this.keepLonger(name, /** @type {Uint8Array | Front} */ (content));
    if (name.endsWith('.times')) await this.keepOther(name, /** @type {string} */ (content));
    const file = await this.handle.getFileHandle(name, { create: true });
    const from = await this.hasFront(name, content, file);
    const stream = await file.createWritable({ keepExistingData: from > 0 }); // another file, which replaces this one when it is closed
    try {
      if (typeof content === 'string') await stream.write(content);
      for (let position = from; typeof content !== 'string' && position < content.length; position += PART) {
        await stream.write({ type: 'write', position, data: content.subarray(position, position + PART) });
      }
    } catch (error) {
      await stream.abort().catch(() => {});
      throw error;
    }
    this.left.delete(name);
    await stream.close();
    this.written.set(name, content);
    const left = content instanceof Front ? await file.getFile().catch(() => null) : null;
    if (left && left.size === content.length) this.left.set(name, stampOf(left));
  }

  /** How many bytes a file has already of what it is to have: those that this page has left there.
   * @type {(name: string, content: Content, file: FileSystemFileHandle) => Promise<number>} */
  async hasFront(name, content, file) {
    const before = this.written.get(name);
    if (!(content instanceof Front) || !content.goesOn(before)) return 0;
    return this.left.get(name) === stampOf(await file.getFile()) ? before.length : 0;
  }

  /** @type {(name: string, content: string) => Promise<void>} one that somebody has edited by hand, under another name */
  async keepEdited(name, content) {
    const found = await this.textOf(name);
    if (found === null || found === this.written.get(name)) return;
    if (!this.written.has(name) && ((this.before.get(name) || []).includes(found) || isEarlier(found, content))) return;
    let number = 1;
    while (await this.has(editedName(name, number))) number += 1;
    const kept = editedName(name, number);
    this.written.set(kept, found);
    await this.writeOne(kept, found);
    this.hears.says(message('filed.kept_edited', { file: name, kept }));
  }

  /** Keeps a capture that this page hasn't written under another name, before one that has less replaces it.
   * @type {(name: string, content: Uint8Array | Front) => Promise<void>} */
  async keepLonger(name, content) {
    if (this.written.has(name)) return;
    if ((await this.sizeOf(name)) <= content.length) return;
    const found = await this.bytesOf(name);
    const kept = await this.freeBefore(name.replace(/\.dgt$/, ''));
    await this.writeOne(kept, found);
    this.hears.says(message('filed.kept_longer', { file: name, kept }));
  }

  /** @type {(name: string, content: string) => Promise<void>} those that this page hasn't written, under another name */
  async keepOther(name, content) {
    if (this.written.has(name)) return;
    const found = await this.bytesOf(name);
    if (found === null || areEarlierTimes(new TextDecoder().decode(found), content)) return;
    let number = 1;
    while (await this.has(otherName(name, number))) number += 1;
    const kept = otherName(name, number);
    await this.writeOne(kept, found);
    this.hears.says(message('filed.kept_times', { file: name, kept, nothing: NOTHING }));
  }

  /** @type {(name: string) => Promise<string>} a free name for a capture as it was before */
  async freeBefore(name) {
    let number = 1;
    while (await this.has(`${name}.before-${number}.dgt`)) number += 1;
    return `${name}.before-${number}.dgt`;
  }

  /** @type {(name: string) => Promise<string | null>} */
  async textOf(name) {
    const file = await this.fileOf(name);
    return file && file.text();
  }

  /** @type {(name: string) => Promise<Uint8Array | null>} */
  async bytesOf(name) {
    const file = await this.fileOf(name);
    return file && new Uint8Array(await file.arrayBuffer());
  }

  /** @type {(name: string) => Promise<number>} how many bytes a file has; 0 if it isn't there */
  async sizeOf(name) {
    const file = await this.fileOf(name);
    return file ? file.size : 0;
  }

  /** @type {(name: string) => Promise<File | null>} a file; null if it isn't there */
  async fileOf(name) {
    try {
      return await (await this.handle.getFileHandle(name)).getFile();
    } catch (error) {
      if (error.name === 'NotFoundError') return null;
      throw error;
    }
  }
}
