// Two plies of which no picture was whole: found in a capture as Recover finds them, and put in if an arbiter says that they were played.

import { ProgramError, endedWith } from '../child/program.js';
import { lineOf } from '../child/report.js';
import { frameAt, joined } from '../line/protocol.js';
import { message } from '../../live/show/page/message.js';
import { gameOf, placementOf } from './course.js';
import { ofBoard } from './options.js';
import { Refused, alike } from './typed.js';

/** Two plies, as they are typed: `3. Bc4 Nc6`; and the offset of the byte with which the board has confirmed them.
 * @typedef {{ moves: string, offset: number }} Pair */

const PLIES = /^recovered ([0-9]+)(\.+) (\S+) ([0-9]+\.+) (\S+)$/;

/** @type {(report: string) => Pair[]} the pairs that a report of `recover` has */
export function pairsIn(report) {
  /** @type {Pair[]} */
  const pairs = [];
  for (const line of report.split('\n').map(lineOf)) {
    if (!line || line.event.kind !== 'recovered') continue;
    const [, number, dots, first, secondNumber, second] = PLIES.exec(line.event.text) || [];
    if (number) pairs.push({ moves: `${number}${dots} ${first} ${dots === '.' ? '' : `${secondNumber} `}${second}`, offset: line.offset });
  }
  return pairs;
}

/** @type {(program: Program, options: Options, sent: Uint8Array) => Promise<{ made: Uint8Array, pairs: Pair[] }>} */
async function recovered(program, options, sent) {
  const { status, output, errors } = await program.recover(ofBoard(options), sent);
  if (status !== 0) throw new ProgramError(endedWith('recover', status));
  return { made: output, pairs: pairsIn(new TextDecoder().decode(errors)) };
}

/** The first two plies that no picture of these bytes shows, and that are confirmed; null if there are none.
 * @type {(program: Program, options: Options, sent: Uint8Array) => Promise<Pair | null>} */
export async function firstPair(program, options, sent) {
  const { pairs } = await recovered(program, options, sent);
  return pairs.length > 0 ? pairs[0] : null;
}

/** The first pair, unless it leads back to an earlier position of a game with these plies: then the plies may have been taken back. Else null.
 * @type {(program: Program, options: Options, sent: Uint8Array, plies: Move[]) => Promise<Pair | null>} */
export async function askedPair(program, options, sent, plies) {
  const pair = await firstPair(program, options, sent);
  if (!pair) return null;
  const { now } = await between(program, options, sent, pair.moves);
  return leadsBack(now.fens, alike(plies, now.plies)) ? null : pair;
}

/** @type {(fens: string[], stays: number) => boolean} whether the two plies behind so many lead to a position that the game had before them */
export function leadsBack(fens, stays) {
  const placements = fens.map(placementOf);
  return placements.length > stays + 2 && placements.slice(0, stays + 1).includes(placements[stays + 2]);
}

/** The bytes of a board with the frames of a pair that `recover` has made behind this byte. They come before the frame that has confirmed the
 * pair: so the pair is in the game by then, and isn't found again.
 * @type {(sent: Uint8Array, made: Uint8Array, offset: number) => Uint8Array} */
export function putBefore(sent, made, offset) {
  const begins = frameAt(sent, offset);
  return joined(sent.subarray(0, begins), made.subarray(offset + 1), sent.subarray(begins));
}

/** These bytes with two plies put in, which are the first that `recover` finds, and no others; and the game that they give. Refused if they
 * aren't.
 * @type {(program: Program, options: Options, sent: Uint8Array, moves: string) => Promise<{ content: Uint8Array, now: Course }>} */
export async function between(program, options, sent, moves) {
  const pair = await firstPair(program, options, sent);
  if (!pair) throw new Refused(message('hidden.none'));
  if (pair.moves !== moves) throw new Refused(message('hidden.others', { moves: pair.moves }));
  const { made } = await recovered(program, options, sent.subarray(0, pair.offset + 1));
  const content = putBefore(sent, made, pair.offset);
  return { content, now: await gameOf(program, options, content) };
}
