// The options of a game: how its board lies, how it begins, what its tags say; and which calls of the program get which
// options.

import { Unreadable, asciiName } from './names.js';
import { cleaned, isSeen, valueOf } from './tags.js';

export const INITIAL = 'rnbqkbnr/pppppppp/8/8/8/8/PPPPPPPP/RNBQKBNR';
export const UNKNOWN = '?'; // PGN's value for an unknown tag
/** @type {('event' | 'site' | 'date' | 'round' | 'white' | 'black')[]} */
const TAGS = ['event', 'site', 'date', 'round', 'white', 'black'];

/** @type {(given?: Partial<Options>) => Options} the options of a game for which only these are given */
export function optionsOf(given = {}) {
  const board = { rotated: false, first: null, fen: null, recover: null, began: null, tags: {} };
  return { ...board, event: null, site: null, date: null, round: null, white: null, black: null, ...given };
}

/** An option and its value are one word, so that no value is taken for an option, whatever it begins with.
 * @type {(options: Options, names: (keyof Options)[]) => string[]} */
const valued = (options, names) => names.flatMap((name) => (options[name] === null ? [] : [`--${name}=${options[name]}`]));

/** @type {(options: Options) => string[]} the options that `watch` and `recover` have */
export const ofBoard = (options) => [...(options.rotated ? ['--rotated'] : []), ...valued(options, ['first', 'fen'])];

/** @type {(options: Options) => string[]} the options that `add` and `back` have */
export const ofTyping = (options) => [...ofBoard(options), ...(options.recover ? ['--recover'] : [])];

/** @type {(options: Options) => string[]} the options of the tags that are recorded */
const ofTags = (options) => valued({ ...options, date: options.date || options.began }, TAGS);

/** @type {(options: Options) => string[]} the options that `record` has */
export const ofRecord = (options) => [...ofBoard(options), ...ofTags(options)];

/** @type {(options: Options) => string[]} the options that `live` has */
export const ofLive = (options) => [...ofTyping(options), ...ofTags(options)];

/** @type {(options: Options) => string} the start position's placement */
export const startOf = (options) => (options.fen || INITIAL).split(' ')[0];

/** @type {{ [name: string]: 'event' | 'site' | 'round' | 'white' | 'black' | undefined }} of tags that are recorded */
const OPTION_OF = { Event: 'event', Site: 'site', Round: 'round', White: 'white', Black: 'black' };

/** @type {(options: Options, name: string) => string} as it was typed; empty if it isn't given */
export function written(options, name) {
  const option = OPTION_OF[name];
  return options.tags[name] || (option ? options[option] : '') || '';
}

/** The options with what was typed for a tag; an empty text takes the tag out. A text that can't be written in ASCII is recorded as
 * `instead`, and published as it was typed. Throws Malformed if the tag can't have it.
 * @type {(options: Options, name: string, typed: string, instead: string) => Options} */
export function withTag(options, name, typed, instead) {
  const value = valueOf(name, typed);
  const tags = { ...options.tags };
  delete tags[name];
  const option = OPTION_OF[name];
  if (!option) return { ...options, tags: value ? { ...tags, [name]: value } : tags };
  if (!value) return { ...options, [option]: null, tags };
  const recorded = recordable(value, instead);
  return { ...options, [option]: recorded, tags: recorded === value ? tags : { ...tags, [name]: value } };
}

/** @type {(text: string, instead: string) => string} a text as it is recorded */
function recordable(text, instead) {
  try {
    return asciiName(text);
  } catch (error) {
    if (!(error instanceof Unreadable) || !isSeen(cleaned(text))) throw error;
    return instead;
  }
}
