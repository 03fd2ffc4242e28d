// Rounds: what all boards share, the next round on all of them, and games that look as if nobody had begun a new round. Pairs are typed, or
// copied from a table, a list or a pairing program, in a line for each board: it is taken only if it has two names, whichever way its parts
// are divided, and what could be read in two ways is refused.

import { dayOf, freeName, nameOfPlayers, pgnDate } from '../game/names.js';
import { UNKNOWN, withTag, written } from '../game/options.js';
import { Complaint, isSame, linked, message } from '../../live/show/page/message.js';

export const OF_ALL = ['Event', 'Site', 'Round']; // the tags that all boards share
const OF_PLAYERS = /^(?:White|Black)/;

/** @type {(round: string) => string} what the round after this one is called: `4` after `3`, `2.4` after `2.3`; empty if nobody can know */
export function roundAfter(round) {
  const match = /^(.*?)([0-9]{1,6})$/.exec(round);
  return match ? `${match[1]}${Number(match[2]) + 1}` : '';
}

/** @type {(options: Options) => string | null} the names of a game and its round, if both players have names */
function keyOf(options) {
  const [white, black, event, round] = ['White', 'Black', 'Event', 'Round'].map((name) => written(options, name).toLowerCase());
  return white && black ? JSON.stringify([white, black, event, round]) : null;
}

/** The games of one round after those of another, in the order in which the rounds were begun; in each by their boards.
 * @template {{ id: number, board: number, options: Options }} Played
 * @param {Played[]} games */
export function byRound(games) {
  /** @type {(game: { options: Options }) => string} */
  const keyOfRound = ({ options }) => JSON.stringify([written(options, 'Event'), written(options, 'Round')]);
  const begun = /** @type {Map<string, number>} */ (new Map());
  for (const game of games) {
    const key = keyOfRound(game);
    begun.set(key, Math.min(game.id, begun.get(key) || game.id));
  }
  /** @type {(game: Played) => number} */
  const begunAt = (game) => begun.get(keyOfRound(game)) || 0;
  return [...games].sort((one, other) => begunAt(one) - begunAt(other) || one.board - other.board || one.id - other.id);
}

/** Those of the games, which are in their order, that have the names and the round of one before them.
 * @template {{ options: Options }} Played
 * @param {Played[]} games */
export function repeated(games) {
  const seen = new Set();
  return games.filter(({ options }) => {
    const key = keyOf(options);
    const isSecond = key !== null && seen.has(key);
    seen.add(key);
    return isSecond;
  });
}

/** The options of a board's next game: its board and its clock lie as before; event, site, round and date are those of the round; the
 * players are the pair's, or nobody knows them. Throws Malformed or Unreadable for a value that its tag can't have.
 * @type {(options: Options, shared: { tags: Tags, date: string | null }, pair: Pair | undefined, number: number, unknown: string) => Options} */
export function optionsOfRound(options, { tags, date }, pair, number, unknown) {
  const kept = Object.entries(options.tags).filter(([name]) => !OF_PLAYERS.test(name) && !OF_ALL.includes(name));
  /** @type {Options} */
  let next = { ...options, white: null, black: null, date, tags: Object.fromEntries(kept) };
  for (const name of OF_ALL) next = withTag(next, name, tags[name] || '', unknown);
  for (const [name, typed] of Object.entries(pair || {})) next = withTag(next, name, typed, `${name} ${number}`);
  return next;
}

/** @typedef {{ White: string, Black: string }} Pair the players of a board */

/** The places of the columns that headings name. If no column is the board's, the first one may be, or none: -1.
 * @typedef {{ count: number, board: number, White: number, Black: number }} Heading
 * @typedef {{ number: number | null, names: string[] }} Parts
 * @typedef {Parts & { at: number, line: string }} Read */

const MOST_SHOWN = 40; // letters of a line that a message quotes
const TITLE = /^(?:W?(?:GM|IM|FM|CM)|w?[gmfc])$/; // a cell with a title
const TITLED = /^W?(?:GM|IM|FM|CM)\s+(?=\S+[\s,])/; // a title before a name
const A_NAME = /^(?:\p{L}|['’‘]|\?$)/u;
const NUMBER = /^([0-9]{1,4})[.):]?$/; // a cell with the board's number
const NUMBERED = /^(?:(?:board|brett|table|tisch|bd|bo)\b\.?\s*|#)?([0-9]{1,4})\s*[.):–—-]?\s+(?=\D)(.+)$/iu; // that number before a name
const OF_A_MATCH = /^[0-9]+[.][0-9]+$/; // a board of a match, as 1.2
const COUNTED = /^[([]?(?:[0-9]+(?:[.,][0-9]+)?[½¼¾]?|[½¼¾])[)\]]?$/; // points, a rating, a number of the list
const RESULT = /^(?:[([]?[0-9½.,]*[)\]]?\s*[-–—:]\s*[([]?[0-9½.,]*[)\]]?|\*|\.+|vs?\.?|1\/2\s*[-–—:]\s*1\/2|[+-]\s*[-–—:]\s*[+-])$/;
const BETWEEN = /\s+(?:[-–—:]|vs\.?)\s+/iu; // two names
const BYES = ['bye', 'spielfrei', 'notpaired', 'nichtausgelost', 'exempt', 'descansa', 'riposo'];
/** @type {{ [column: string]: string[] }} */
const COLUMNS = {
  board: ['board', 'boardno', 'bo', 'bd', 'brd', 'table', 'tisch', 'brett', 'br', 'tavolo', 'tav', 'tablero', 'mesa', 'echiquier', 'ech'],
  White: ['white', 'weiss', 'blancs', 'blanc', 'blancas', 'blanco', 'bianco', 'bianchi'],
  Black: ['black', 'schwarz', 'noirs', 'noir', 'negras', 'negro', 'nero', 'neri'],
  number: ['', 'no', 'nr'],
  name: ['name', 'player', 'spieler', 'teilnehmer', 'joueur', 'jugador', 'giocatore', 'nom', 'nombre'],
};

/** Pairs that can't be read. The message says where, why, and what to type. */
export class NoPair extends Complaint {}

/** @type {(text: string) => string} only letters and digits, in lower case and without marks: `Weiß` becomes `weiss` */
const normal = (text) => text.replaceAll('ß', 'ss').normalize('NFKD').toLowerCase().replace(/[^\p{L}\p{N}]/gu, '');

/** @type {(line: string, separator: string) => string[]} the cells of a line at this separator; one in quotes may have it inside */
function divided(line, separator) {
  const cells = [''];
  let isQuoted = false;
  for (const letter of line) {
    if (letter === '"' && (isQuoted || !cells[cells.length - 1].trim())) isQuoted = !isQuoted;
    else if (letter === separator && !isQuoted) cells.push('');
    else cells[cells.length - 1] += letter;
  }
  return cells.map((cell) => cell.trim());
}

/** The cells of a line: at tabs, semicolons, wide gaps or commas, and where two names have a dash between them.
 * @type {(line: string) => { cells: string[], hasCommas: boolean }} */
function cellsOf(line) {
  if (line.includes('\t')) return { cells: divided(line, '\t'), hasCommas: false };
  if (line.includes(';')) return { cells: divided(line, ';'), hasCommas: false };
  if (/\S\s{2,}\S/u.test(line)) return { cells: line.trim().split(/\s{2,}/u), hasCommas: false };
  if (BETWEEN.test(line)) return { cells: [line.trim()], hasCommas: false };
  return { cells: divided(line, ','), hasCommas: line.includes(',') };
}

/** @type {(cell: string) => string} a name without what may stand around it: points, a title, a rating */
function nameIn(cell) {
  const name = cell.replace(/^[([][0-9½.,]+[)\]]\s*/, '').replace(/\s*[([][0-9½.,]+[)\]]$/, '').replace(/\s+[0-9]{3,4}$/, '');
  return name.replace(TITLED, '').trim();
}

/** @type {(cells: string[]) => Parts} the names of a line, and the board's number before them, if there is one */
function partsOf(cells) {
  const filled = cells.filter((cell) => cell);
  const [, alone] = NUMBER.exec(filled[0] || '') || [];
  const [, before, rest] = (!alone && NUMBERED.exec(filled[0] || '')) || [];
  const others = alone ? filled.slice(1) : [...(before ? [rest] : filled.slice(0, 1)), ...filled.slice(1)];
  const texts = others.filter((cell) => !COUNTED.test(cell) && !RESULT.test(cell) && !TITLE.test(cell));
  const named = texts.length > 2 ? texts.filter((cell) => !/^[A-Z]{3}$/.test(cell)) : texts; // federations
  /** @type {(name: string) => boolean} */
  const isName = (name) => name !== '' && !COUNTED.test(name) && !RESULT.test(name);
  const names = named.flatMap((cell) => cell.split(BETWEEN)).map(nameIn).filter(isName);
  const number = alone || before;
  return { number: number ? Number(number) : null, names };
}

/** @type {(cells: string[]) => Heading | null} the places of the columns that headings name; null if these are no headings */
function headingOf(cells) {
  const words = cells.map(normal);
  /** @type {(column: string) => number} */
  const place = (column) => words.findIndex((word) => COLUMNS[column].includes(word));
  const named = words.flatMap((word, at) => (COLUMNS.name.includes(word) ? [at] : []));
  const [white, black] = place('White') < 0 && named.length === 2 ? named : [place('White'), place('Black')];
  if (white < 0 || black < 0 || NUMBER.test(cells[0])) return null;
  const board = place('board') < 0 && COLUMNS.number.includes(words[0]) ? 0 : place('board');
  return { count: cells.length, board, White: white, Black: black };
}

/** @type {(heading: Heading, cells: string[]) => Parts} the same as `partsOf`, by the places that headings have given */
function partsBy(heading, cells) {
  const [, number] = NUMBER.exec(cells[heading.board] || '') || [];
  const names = [cells[heading.White], cells[heading.Black]].map(nameIn).filter((name) => A_NAME.test(name));
  return { number: number ? Number(number) : null, names };
}

/** @type {(line: string) => string} */
const quoted = (line) => (line.length > MOST_SHOWN ? `${line.slice(0, MOST_SHOWN)}..` : line);
const HOW = message('paste.how');

/** What a line has; null if it has a bye, or headings again. Throws NoPair if it has no pair.
 * @type {(typed: { line: string, at: number }, heading: Heading | null) => Read | null} */
function readLine({ line, at }, heading) {
  const { cells, hasCommas } = cellsOf(line);
  if (cells.some((cell) => BYES.includes(normal(cell))) || headingOf(cells)) return null;
  const isBelow = heading && cells.length > Math.max(heading.White, heading.Black);
  const hasMore = isBelow && cells.slice(heading.count).some((cell) => cell);
  const { number, names } = isBelow ? partsBy(heading, cells) : partsOf(cells);
  if (names.length === 2 && headingOf(names)) return null;
  const text = quoted(line.trim());
  if (hasMore) throw new NoPair(message('paste.more_columns', { line: at, text }));
  if (names.length === 1) throw new NoPair(message('paste.one_name', { line: at, name: names[0], how: HOW }));
  if (names.length !== 2 || !names.every((name) => A_NAME.test(name)) || OF_A_MATCH.test(cells[0])) {
    throw new NoPair(message('paste.unreadable', { line: at, text, how: HOW }));
  }
  const areShort = names.some((name) => !/\s/u.test(name));
  if (hasCommas && number === null && !heading && areShort) {
    throw new NoPair(message('paste.one_or_two', { line: at, names: names.join(', ') }));
  }
  return { at, line: line.trim(), number, names };
}

/** The players of each board: `pairs`, a map from its number; and `passed`, the lines that say nothing of these boards. Without numbers the
 * lines are those of `boards` in their order. Throws NoPair.
 * @type {(text: string, boards: number[]) => { pairs: Map<number, Pair>, passed: string[] }} */
export function pairsOf(text, boards) {
  const lines = text.split(/\r\n|\r|\n/u).map((line, at) => ({ line, at: at + 1 })).filter(({ line }) => line.trim());
  const head = lines.findIndex(({ line }) => headingOf(cellsOf(line).cells) !== null);
  const heading = head < 0 ? null : headingOf(cellsOf(lines[head].line).cells);
  const passed = lines.slice(0, Math.max(0, head)).map(({ line }) => line.trim());
  const read = /** @type {Read[]} */ ([]);
  for (const one of lines.slice(head + 1)) {
    const found = readLine(one, heading);
    if (found) read.push(found);
    else passed.push(one.line.trim());
  }
  const areNumbered = read.some(({ number }) => number !== null);
  const pairs = /** @type {Map<number, Pair>} */ (new Map());
  for (const { at, line, number: typed, names: [White, Black] } of read) {
    if (areNumbered && typed === null) throw new NoPair(message('paste.no_number', { line: at, how: HOW }));
    const number = typed === null ? boards[pairs.size] : typed;
    if (number === undefined) throw new NoPair(message('paste.few_boards', { line: at, count: boards.length }));
    if (pairs.has(number)) throw new NoPair(message('paste.board_twice', { line: at, board: number }));
    if (boards.includes(number)) pairs.set(number, { White, Black });
    else if (number > Math.max(...boards)) passed.push(line); // a board of which nothing is recorded here
    else throw new NoPair(message('paste.no_board', { line: at, board: number }));
  }
  if (read.length > 0 && pairs.size === 0) throw new NoPair(message('paste.no_board', { line: read[0].at, board: read[0].number }));
  if (lines.length > 0 && read.length === 0) throw new NoPair(message('paste.no_names', { how: HOW }));
  return { pairs, passed };
}

/** @typedef {Pick<Finished, 'id' | 'board' | 'options' | 'pgn' | 'isAgain'>} Played */

const MOST_NAMED = 4; // games that a question names

export class Rounds {
  /** @param {Hall} hall */
  constructor(hall) {
    this.hall = hall;
    this.given = /** @type {Tags} */ ({}); // the tags of new games
    this.asked = /** @type {Words} */ (''); // the last question about games with the same names
    this.isKeeping = false; // whether its answer is being kept: until then the question stays
  }

  // What all boards share.

  /** @type {(seat: Seat, name: string, value: string) => Promise<void>} boards that have nothing there get it too */
  async share(seat, name, value) {
    this.give({ ...this.given, [name]: value });
    if (!value) return;
    for (const other of this.others(seat)) {
      if (!written(other.options, name)) await this.set(other, name, value);
    }
  }

  /** @type {(seat: Seat, name: string) => Recorded[]} the boards at which this tag is another one */
  differing(seat, name) {
    const value = written(seat.options, name);
    return this.others(seat).filter((other) => written(other.options, name) !== value);
  }

  /** @type {(seat: Seat, name: string) => Promise<void>} each board gets what this one has */
  async shareWithAll(seat, name) {
    const value = written(seat.options, name);
    for (const other of this.differing(seat, name)) await this.set(other, name, value);
    this.hall.changed();
  }

  /** @type {(seat: Seat) => Recorded[]} */
  others(seat) {
    return this.hall.recorded().filter((other) => other !== seat);
  }

  /** @type {(seat: Seat, name: string, value: string) => Promise<void>} */
  set(seat, name, value) {
    return seat.edit({ options: withTag(seat.options, name, value, UNKNOWN) });
  }

  /** @type {(given: Tags) => void} new boards get these tags */
  give(given) {
    this.given = given;
    this.hall.database.set('given', given).catch((error) => this.hall.says(message('keep.given', { why: error.message })));
  }

  // A new round.

  /** What a new round is likely to be. */
  get likely() {
    const { Event = '', Site = '', Round = '' } = this.given;
    const wasPlayed = this.games().some(({ options }) => written(options, 'Round') === Round);
    return { Event, Site, Round: wasPlayed ? roundAfter(Round) : Round, Date: dayOf(new Date()) };
  }

  /** The boards whose games end without a result, and those whose games have begun and only get other names. */
  get inPlay() {
    const begun = this.seats().filter((seat) => seat.hasMoves && !seat.isOver);
    const again = this.repeated();
    const goOn = begun.filter((seat) => again.some(({ id }) => id === seat.game.id));
    return { end: begun.filter((seat) => seat.isInPlay && !goOn.includes(seat)), goOn };
  }

  /** The players of each board as they were typed, and what of that says nothing of these boards. Throws NoPair.
   * @type {(lines: string) => { pairs: Map<number, Pair>, passed: string[] }} */
  pairsIn(lines) {
    return pairsOf(lines, this.seats().map(({ id }) => id));
  }

  /** Begins it on all boards, as it was typed. Throws an Error, and does nothing, if something in them can't be written. Returns the boards
   * on which it couldn't be begun.
   * @type {(typed: Round & { pairs: string }) => Promise<Recorded[]>} */
  async beginRound({ Date: typed, pairs: lines, ...tags }) {
    const seats = this.seats();
    const { pairs } = this.pairsIn(lines);
    const day = typed.trim() ? pgnDate(typed) : null;
    const date = day === dayOf(new Date()) ? null : day; // the day on which a game begins is its date anyway
    const options = seats.map((seat) => optionsOfRound(seat.options, { tags, date }, pairs.get(seat.id), seat.id, UNKNOWN));
    const { goOn } = this.inPlay;
    this.give(Object.fromEntries(OF_ALL.map((name) => [name, written(options[0], name)])));
    const failed = /** @type {Recorded[]} */ ([]);
    for (const [at, seat] of seats.entries()) {
      const isOn = goOn.includes(seat) || (!seat.isWritten && !seat.isOver);
      await this.beginOn(seat, options[at], isOn).catch((error) => {
        this.hall.says(message('failed.round_here', { why: error.message }), seat.id);
        failed.push(seat);
      });
    }
    this.look();
    this.hall.changed();
    return failed;
  }

  /** @type {(seat: Seat, options: Options, isOn: boolean) => Promise<void>} or gives its options to the game that is on */
  async beginOn(seat, options, isOn) {
    const name = nameOfPlayers(written(options, 'White'), written(options, 'Black')) || `board ${seat.id}`;
    if (isOn) {
      await seat.edit({ options });
      await this.hall.rename(seat, name);
    } else {
      await seat.recording.next.want({ options, name: freeName(name, this.hall.names()) });
    }
  }

  seats() {
    return this.hall.recorded().sort((one, other) => one.id - other.id);
  }

  // Games with the same names.

  /** @type {() => Played[]} all games with moves and their texts, in the order in which they were begun */
  games() {
    const games = this.hall.seated().flatMap((seat) => [...seat.finished, ...(seat.isWritten ? [{ ...seat.game, pgn: seat.pgn }] : [])]);
    return games.sort((one, other) => one.id - other.id);
  }

  /** @type {() => Played[]} the games with the names and the round of an earlier one, unless somebody has said that this is right */
  repeated() {
    return repeated(this.games()).filter(({ isAgain }) => !isAgain);
  }

  /** Asks about games with the names and the round of an earlier one. */
  look() {
    if (this.isKeeping) return;
    const games = this.repeated();
    /** @type {(options: Options) => string} */
    const players = (options) => nameOfPlayers(written(options, 'White'), written(options, 'Black'));
    /** @type {(game: Played) => Words} */
    const nameOf = ({ board, options }) => linked('comma', [message('round.board', { board }), players(options)]);
    const more = games.length > MOST_NAMED ? [message('ask.and_more', { count: games.length - MOST_NAMED })] : [];
    const which = linked('semicolon', [...games.slice(0, MOST_NAMED).map(nameOf), ...more]);
    const text = games.length > 0 ? message('ask.same_names', { games: which }) : '';
    if (isSame(text, this.asked)) return;
    this.asked = text;
    /** @type {Button[]} */
    const names = games.length === 1 ? [[message('label.change_names'), () => this.hall.hears.names(games[0].board)]] : [];
    this.hall.notice('again', text, text ? [
      [message('label.new_round'), () => this.hall.hears.newRound()],
      ...names,
      [message('label.is_right'), () => this.isRight(games).catch((error) => this.hall.says(error.message || String(error)))],
    ] : []);
  }

  /** @type {(games: Played[]) => Promise<void>} somebody says that these games are right as they are */
  async isRight(games) {
    /** @type {(id: number) => boolean} */
    const again = (id) => games.some((game) => game.id === id);
    this.isKeeping = true;
    try {
      for (const seat of this.seats()) {
        if (again(seat.game.id)) {
          await seat.edit({ isAgain: true });
          await seat.session.record.keeping;
        }
        for (const game of seat.finished.filter(({ id }) => again(id))) {
          game.isAgain = true;
          const { pgn, bytes, times, ...kept } = game;
          await this.hall.database.putGame(kept);
        }
      }
    } finally {
      this.isKeeping = false;
    }
    this.look();
  }
}
