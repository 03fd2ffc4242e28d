// The course of a game, as the program reports it; read from given bytes by calls of the program; and its text.

import { ProgramError } from '../child/program.js';
import { lineOf } from '../child/report.js';
import { dumpsIn, joined } from '../line/protocol.js';
import { message } from '../../live/show/page/message.js';
import { forfeitOf, tagsOfForfeit } from './forfeits.js';
import { ofBoard, ofRecord, ofTyping } from './options.js';
import { published } from './tags.js';
import { readAnswer, readBack, refuseBack } from './typed.js';

/** @type {(fen: string) => string} the pieces of a position */
export const placementOf = (fen) => fen.split(' ')[0];

/** The moves of a game with their positions, its result, and what the board shows. */
export class Course {
  constructor() {
    this.plies = /** @type {Move[]} */ ([]);
    this.settledAt = /** @type {number[]} */ ([]); // the offset of the last line about each ply
    this.fens = /** @type {string[]} */ ([]); // of the start and after each ply, as far as they are reported
    this.result = '*';
    this.resultAt = -1; // the offset of the last line about it
    this.placement = ''; // what the board shows
    this.clock = /** @type {Clock | null} */ (null); // what the clocks show, as far as it is reported
  }

  /** @type {(line: Line) => void} the next line */
  take({ offset, event }) {
    if (event.kind === 'picture') {
      this.placement = event.placement;
    } else if (event.kind === 'position') {
      this.fens.length = Math.min(this.fens.length, this.plies.length);
      this.fens.push(event.fen);
    } else if (event.kind === 'clock') {
      this.clock = event;
    } else if (event.kind === 'move' || event.kind === 'result') {
      this.takeChange(event, offset);
    }
  }

  /** Whether the board shows a position that the game had more than two plies ago: perhaps all since was taken back. */
  get hasGoneBack() {
    return this.fens.slice(0, -3).some((fen) => placementOf(fen) === this.placement);
  }

  /** What a card shows at once: how many plies there are, the last one, and the result. */
  get newest() {
    const last = this.plies[this.plies.length - 1];
    return [this.plies.length, last ? last.san : '', this.result].join(' ');
  }

  /** Whether the last move has ended the game, by mate or stalemate: the result came with it. */
  get isEndedByMove() {
    return this.result !== '*' && this.plies.length > 0 && this.resultAt === this.settledAt[this.plies.length - 1];
  }

  /** @type {(change: Change, offset: number) => void} */
  takeChange(change, offset) {
    if (change.kind === 'result') {
      this.result = change.outcome;
      this.resultAt = offset;
      return;
    }
    if (change.corrects && this.plies.length > 0) {
      this.plies.pop();
      this.settledAt.pop();
      this.fens.length = Math.min(this.fens.length, this.plies.length + 1);
    }
    this.plies.push(change);
    this.settledAt.push(offset);
  }
}

/** @type {(plies: Move[]) => string[]} White's clock and Black's, each after its last move */
export function clocksOf(plies) {
  /** @type {(isBlack: boolean) => Move | undefined} */
  const last = (isBlack) => [...plies].reverse().find((ply) => ply.clock && ply.number.endsWith('...') === isBlack);
  return [false, true].map((isBlack) => last(isBlack)?.clock || '');
}

export const NO_PLIES = '0';
const SHOWN = 1 << 20; // bytes in which a board says again and again how it stands

/** What a game is read from: what the board sent, with the pairs that `recover` adds if that is asked for.
 * @type {(program: Program, options: Options, sent: Uint8Array) => Promise<Uint8Array>} */
const wholeOf = async (program, options, sent) => (options.recover ? program.output(['recover', ...ofBoard(options)], sent) : sent);

/** @type {(program: Program, options: Options, sent: Uint8Array) => Promise<Course>} the course of a game of these bytes */
export async function gameOf(program, options, sent) {
  const course = new Course();
  for (const text of await program.lines(['watch', ...ofBoard(options)], await wholeOf(program, options, sent))) {
    const line = lineOf(text);
    if (line) course.take(line);
  }
  return course;
}

/** Whether the game of these bytes has these plies alone, and no result.
 * @type {(program: Program, options: Options, sent: Uint8Array, plies: Move[]) => Promise<boolean>} */
export async function hasAlone(program, options, sent, plies) {
  const game = await gameOf(program, options, sent);
  return game.result === '*' && game.plies.length === plies.length && plies.every(({ san }, at) => game.plies[at].san === san);
}

/** How the board stands behind these bytes, for a game that begins there. The dump is empty if the board has shown nothing. `shows` has
 * words for a first move that the board shows; or for a result, and with that no game begins: the dump is null.
 * @type {(program: Program, options: Options, sent: Uint8Array) => Promise<{ dump: Uint8Array | null, shows: Words }>} */
export async function standsAt(program, options, sent) {
  const said = await takenOff(program, { ...options, recover: null }, sent); // pairs don't change how it stands
  const { kind, rest, put } = said;
  if (put) return { dump: lastDumpIn(put), shows: '' };
  if (kind === 'unseen') return { dump: new Uint8Array(0), shows: '' };
  if (kind === 'signed') return { dump: null, shows: message('next.shows_a_result', { result: rest }) };
  if (kind !== 'moved') throw refuseBack(said, NO_PLIES, []);
  return { dump: await dumpAfter(program, options, rest.split(' ')[1]), shows: message('next.shows_a_move', { ply: rest }) };
}

/** A dump of the start, as the program makes it of what the board has shown in the first so many bytes, and what came behind them.
 * @type {(program: Program, options: Options, sent: Uint8Array, bytes: number) => Promise<Uint8Array>} */
export async function fromStart(program, options, sent, bytes) {
  const { kind, put } = await takenOff(program, options, sent.subarray(0, bytes));
  if (!put) throw new ProgramError(message('program.refused_the_start', { why: kind }));
  return joined(lastDumpIn(put), sent.subarray(bytes));
}

/** @type {(made: Uint8Array) => Uint8Array} the last dump in bytes that the program has made, which have one */
export function lastDumpIn(made) {
  const dumps = dumpsIn(made);
  return dumps[dumps.length - 1];
}

/** What `back` answers if all plies are to go. How the board stands is in its last bytes; if it isn't, all are read.
 * @type {(program: Program, options: Options, sent: Uint8Array) => Promise<Back>} */
async function takenOff(program, options, sent) {
  const said = readBack(await program.back(ofTyping(options), sent.subarray(-SHOWN), NO_PLIES));
  if (said.kind !== 'unseen' || sent.length <= SHOWN) return said;
  return readBack(await program.back(ofTyping(options), sent, NO_PLIES));
}

/** @type {(program: Program, options: Options, san: string) => Promise<Uint8Array>} a dump of the board after this first move */
async function dumpAfter(program, options, san) {
  const { put } = readAnswer('add', await program.add(ofTyping(options), new Uint8Array(0), san));
  return dumpsIn(/** @type {Uint8Array} */ (put))[0]; // the one behind it is of a board that has shown nothing
}

/** The PGN of these bytes, as it is published; of a game that was forfeited so, if it has no move.
 * @type {(program: Program, options: Options, sent: Uint8Array, forfeit?: string) => Promise<string>} */
export async function textOf(program, options, sent, forfeit = '') {
  const whole = await wholeOf(program, options, sent);
  return publishedOf(await program.output(['record', ...ofRecord(options)], whole), options, forfeit);
}

/** @type {(pgn: Uint8Array, options: Options, forfeit: string) => string} the published text of a game with this PGN, as bytes */
export function publishedOf(pgn, options, forfeit) {
  const recorded = new TextDecoder().decode(pgn);
  return published(recorded, options.tags, tagsOfForfeit(forfeitOf(forfeit, recorded)));
}
