// What the page keeps, in IndexedDB: boards, games, what the boards sent, captures as they were before `back`, and settings; among these the
// times of captures.
//
// Each transaction but those of times alone is strict: it ends only after its data was handed to the disk. One whose requests are all
// known is committed at once: else the browser waits until this page has heard of each of them, and draws before that.

import { Complaint, message } from '../../live/show/page/message.js';

/** @typedef {(transaction: IDBTransaction) => IDBRequest | void} Make
 * @typedef {{ game: number, chunks: Chunk[], done: (nothing?: unknown) => void, failed: (error: Error) => void }} Part */

const NAME = 'dgt_recorder';
const VERSION = 1;
const LAST = Number.MAX_SAFE_INTEGER;
const STRICT = 'strict';
const RELAXED = 'relaxed'; // behind what was strict before it, at once or soon
const MOST_READ = 512; // chunks that are read at a time
const MOST_APPENDING = 3; // transactions with chunks at a time: the browser goes on with the next one without this page

/** @type {<Answer>(request: IDBRequest<Answer>) => Promise<Answer>} the answer to a request */
function answerOf(request) {
  return new Promise((done, failed) => {
    request.onsuccess = () => done(request.result);
    request.onerror = () => failed(request.error);
  });
}

/** Makes changes in one transaction. When this ends, all of them are on the disk, if it is strict; if it fails, none.
 * @type {(database: IDBDatabase, stores: string[], make: Make, durability?: IDBTransactionDurability) => Promise<unknown>} */
function changed(database, stores, make, durability = STRICT) {
  return new Promise((done, failed) => {
    const transaction = database.transaction(stores, 'readwrite', { durability });
    /** @type {IDBRequest | void} */
    let made;
    transaction.oncomplete = () => done(made && made.result);
    transaction.onabort = () => failed(transaction.error || new Complaint(message('keep.transaction_ended')));
    made = make(transaction);
  });
}

/** @type {(make: Make) => Make} makes changes that need no answer */
function whole(make) {
  return (transaction) => {
    const made = make(transaction);
    transaction.commit();
    return made;
  };
}

/** @type {(game: number) => IDBKeyRange} */
const chunksOf = (game) => IDBKeyRange.bound([game, 0], [game, LAST]);
const [TIMES, OTHER_TIMES] = ['times', 'other times']; // of a game's capture; and what was found there and isn't of it
/** @type {(what: string, game: number) => IDBKeyRange} */
const settingsOf = (what, game) => IDBKeyRange.bound([what, game, 0], [what, game, LAST]);

/** @type {(transaction: IDBTransaction, game: number, row: Row, isAll: boolean) => void} instead of all, if that is said */
function putTimes(transaction, game, { number, at, text }, isAll) {
  const store = transaction.objectStore('settings');
  if (isAll) store.delete(settingsOf(TIMES, game));
  if (text) store.put({ name: [TIMES, game, number], value: { at, text } });
}

export class Database {
  constructor() {
    this.database = /** @type {IDBDatabase | null} */ (null); // the open connection
    this.opening = /** @type {Promise<IDBDatabase> | null} */ (null);
    this.epoch = 0; // how often it was opened
    this.gathered = /** @type {Part[]} */ ([]); // chunks that the next transaction keeps
    this.appending = 0; // transactions with chunks that are under way
    // What must be in it when it is opened again.
    /** @type {() => Remembered} */
    this.remembers = () => ({ boards: [], games: [], captures: [], times: [], settings: [] });
  }

  static async open() {
    const opened = new Database();
    await opened.connection();
    return opened;
  }

  /** The open connection. The browser closes it when its disk is full or its data is cleared, and another tab may delete all: then it is
   * opened again.
   * @type {() => Promise<IDBDatabase>} */
  async connection() {
    if (this.database) return this.database;
    if (!this.opening) {
      this.opening = this.connect().finally(() => {
        this.opening = null;
      });
    }
    return this.opening;
  }

  async connect() {
    const request = indexedDB.open(NAME, VERSION);
    request.onupgradeneeded = () => {
      const database = request.result;
      database.createObjectStore('boards', { keyPath: 'id' });
      database.createObjectStore('games', { keyPath: 'id', autoIncrement: true });
      database.createObjectStore('chunks', { keyPath: ['game', 'number'] });
      database.createObjectStore('before', { autoIncrement: true });
      database.createObjectStore('settings', { keyPath: 'name' });
    };
    const database = await answerOf(request);
    const lost = () => this.lose(database);
    database.onclose = lost;
    database.onversionchange = lost; // another tab deletes it, and waits until it is closed here
    if (this.epoch > 0) await this.keepAnew(database);
    this.epoch += 1;
    this.database = database;
    return database;
  }

  /** @type {(database: IDBDatabase) => void} this connection can't be used any more */
  lose(database) {
    database.close();
    if (this.database === database) this.database = null;
  }

  get isOpen() {
    return this.database !== null;
  }

  /** Puts what the page remembers into a database that was just opened again; captures that are whole only if they are gone.
   * @type {(database: IDBDatabase) => Promise<void>} */
  async keepAnew(database) {
    const { boards, games, captures, times, settings } = this.remembers();
    try {
      await changed(database, ['boards', 'games', 'chunks', 'settings'], (transaction) => {
        /** @type {(store: string) => (one: unknown) => IDBRequest} */
        const put = (store) => (one) => transaction.objectStore(store).put(one);
        boards.forEach(put('boards'));
        games.forEach(put('games'));
        settings.forEach(put('settings'));
        for (const chunk of captures) {
          const counted = transaction.objectStore('chunks').count(chunksOf(chunk.game));
          counted.onsuccess = () => counted.result === 0 && put('chunks')(chunk);
        }
        for (const { game, ...lines } of times) putTimes(transaction, game, lines, true);
      });
    } catch (error) {
      this.lose(database);
      throw error;
    }
  }

  /** Makes changes. When this ends, all of them are on the disk; if it fails, none.
   * @type {(stores: string[], make: Make, durability?: IDBTransactionDurability) => Promise<unknown>} */
  async change(stores, make, durability = STRICT) {
    const database = await this.connection();
    return this.watched(database, () => changed(database, stores, make, durability));
  }

  /** @type {<Answer>(store: string, query: (store: IDBObjectStore) => IDBRequest<Answer>) => Promise<Answer>} */
  async read(store, query) {
    const database = await this.connection();
    return this.watched(database, () => answerOf(query(database.transaction(store, 'readonly').objectStore(store))));
  }

  /** Does this with the connection, and drops that if the browser has closed it.
   * @type {<Answer>(database: IDBDatabase, use: () => Promise<Answer>) => Promise<Answer>} */
  async watched(database, use) {
    try {
      return await use();
    } catch (error) {
      if (error && error.name === 'InvalidStateError') this.lose(database);
      throw error;
    }
  }

  /** @type {() => Promise<Board[]>} */
  boards() {
    return this.read('boards', (store) => store.getAll());
  }

  /** @type {() => Promise<Game[]>} */
  games() {
    return this.read('games', (store) => store.getAll());
  }

  /** @type {(id: number) => Promise<Board | undefined>} */
  board(id) {
    return this.read('boards', (store) => store.get(id));
  }

  /** @type {(board: Board) => Promise<unknown>} */
  putBoard(board) {
    return this.change(['boards'], whole((transaction) => transaction.objectStore('boards').put(board)));
  }

  /** @type {(game: Game) => Promise<unknown>} keeps a game, and returns its key */
  putGame(game) {
    return this.change(['games'], whole((transaction) => transaction.objectStore('games').put(game)));
  }

  /** Begins a game of a board, with the first chunks of its capture, after the game before it, if any. Returns its key.
   * @type {(board: Board, game: Omit<Game, 'id'>, chunks: Chunk[], before?: Game | null) => Promise<number>} */
  async beginGame(board, game, chunks, before = null) {
    let key = 0;
    await this.change(['boards', 'games', 'chunks'], (transaction) => {
      if (before) transaction.objectStore('games').put(before);
      const put = transaction.objectStore('games').put(game);
      put.onsuccess = () => {
        key = Number(put.result);
        transaction.objectStore('boards').put({ ...board, game: key });
        for (const chunk of chunks) transaction.objectStore('chunks').put({ game: key, ...chunk });
      };
    });
    return key;
  }

  /** @type {(id: number, games: number[]) => Promise<unknown>} removes a board and its games, with what was taken off them */
  removeBoard(id, games) {
    return this.change(['boards', 'games', 'chunks', 'before', 'settings'], (transaction) => {
      transaction.objectStore('boards').delete(id);
      for (const game of games) {
        transaction.objectStore('games').delete(game);
        transaction.objectStore('chunks').delete(chunksOf(game));
        for (const what of [TIMES, OTHER_TIMES]) transaction.objectStore('settings').delete(settingsOf(what, game));
      }
      const old = transaction.objectStore('before').openCursor();
      old.onsuccess = () => {
        const cursor = old.result;
        if (!cursor) return;
        if (games.includes(cursor.value.game)) cursor.delete();
        cursor.continue();
      };
    });
  }

  /** @type {(game: number) => AsyncGenerator<Chunk[]>} what was kept of a game, in order, so many at a time */
  async *chunks(game) {
    for (let from = 0, count = MOST_READ; count === MOST_READ; ) {
      const range = IDBKeyRange.bound([game, from], [game, LAST]);
      const chunks = await this.read('chunks', (store) => store.getAll(range, MOST_READ));
      yield chunks;
      count = chunks.length;
      if (count > 0) from = chunks[count - 1].number + 1;
    }
  }

  /** @type {(game: number) => Promise<number>} how many chunks of a game it has */
  count(game) {
    return this.read('chunks', (store) => store.count(chunksOf(game)));
  }

  /** Keeps chunks of a game's capture, in one transaction with those of other games that come while others are under way.
   * @type {(game: number, chunks: Chunk[]) => Promise<unknown>} */
  append(game, chunks) {
    return new Promise((done, failed) => {
      this.gathered.push({ game, chunks, done, failed });
      if (this.appending < MOST_APPENDING) this.appendAll();
    });
  }

  async appendAll() {
    this.appending += 1;
    await null; // what comes in the same turn goes with it
    while (this.gathered.length > 0) await this.appendThese(this.gathered.splice(0));
    this.appending -= 1;
  }

  /** @type {(parts: Part[]) => Promise<void>} if they can't be kept together, each game's are tried alone */
  async appendThese(parts) {
    const put = whole((transaction) => {
      const store = transaction.objectStore('chunks');
      for (const { game, chunks } of parts) for (const chunk of chunks) store.put({ game, ...chunk });
    });
    try {
      await this.change(['chunks'], put);
      parts.forEach(({ done }) => done());
    } catch (error) {
      if (parts.length > 1) await Promise.all(parts.map((part) => this.appendThese([part])));
      else parts[0].failed(error);
    }
  }

  /** The capture of a game is this from now on, and its times are these; `before` is kept too, if given.
   * @type {(game: Game, chunks: Chunk[], times: Row, before: Before | null) => Promise<unknown>} */
  renew(game, chunks, times, before) {
    return this.change(['games', 'chunks', 'before', 'settings'], whole((transaction) => {
      if (before) transaction.objectStore('before').put(before);
      transaction.objectStore('chunks').delete(chunksOf(game.id));
      for (const chunk of chunks) transaction.objectStore('chunks').put({ game: game.id, ...chunk });
      putTimes(transaction, game.id, times, true);
      transaction.objectStore('games').put(game);
    }));
  }

  /** @type {(game: number) => Promise<Row[]>} the lines of a game's times, in order */
  async times(game) {
    const rows = await this.read('settings', (store) => store.getAll(settingsOf(TIMES, game)));
    return rows.map(({ name, value }) => ({ number: name[2], at: value.at, text: value.text }));
  }

  /** Keeps lines of a game's times behind the others; or instead of them, if they are all; and what isn't of its capture beside.
   * @type {(game: number, lines: Row, isAll: boolean, other: string) => Promise<unknown>} */
  appendTimes(game, lines, isAll, other) {
    const make = whole((transaction) => {
      putTimes(transaction, game, lines, isAll);
      if (other) transaction.objectStore('settings').put({ name: [OTHER_TIMES, game, lines.at], value: other });
    });
    return this.change(['settings'], make, RELAXED);
  }

  /** @type {(game: number) => Promise<string[]>} what was found instead of a game's times, the oldest first */
  async otherTimes(game) {
    const rows = await this.read('settings', (store) => store.getAll(settingsOf(OTHER_TIMES, game)));
    return rows.map(({ value }) => value);
  }

  /** @type {() => Promise<Before[]>} all captures as they were before they were made anew */
  before() {
    return this.read('before', (store) => store.getAll());
  }

  /** A setting; null if it isn't there.
   * @template {keyof Settings} Name
   * @param {Name} name
   * @returns {Promise<Settings[Name] | null>} */
  async setting(name) {
    const found = await this.read('settings', (store) => store.get(name));
    return found === undefined ? null : found.value;
  }

  /** @template {keyof Settings} Name
   * @param {Name} name
   * @param {Settings[Name]} value */
  set(name, value) {
    return this.change(['settings'], whole((transaction) => transaction.objectStore('settings').put({ name, value })));
  }
}
