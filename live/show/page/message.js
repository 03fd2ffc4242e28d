// What a person reads: a key of the catalogue, and what goes into the places of its sentence, as in live/words/. A page has those
// sentences that its scripts need.

/**
 * @typedef {string | Message} Words a text, which may be a message
 * @typedef {{ [name: string]: unknown }} Places what goes into the places of a sentence, by their names
 */

/** @type {Map<string, string>} */
const ENGLISH = new Map(Object.entries(JSON.parse(/** @type {{ textContent: string }} */ (document.getElementById('words')).textContent)));
const PLACE = /\{([A-Za-z_]+)\}/g;

/** A sentence. As a string it is the English text, which logs keep. Its key and its places make the text in another language. */
export class Message extends String {
  /**
   * @param {string} key
   * @param {Places} places
   */
  constructor(key, places) {
    super(written(key, places));
    this.key = key;
    this.places = places;
  }
}

/**
 * The sentence of this key, with these in its places: { name: what goes there }.
 * @type {(key: string, places?: Places) => Message}
 */
export function message(key, places = {}) {
  return new Message(key, places);
}

/** An error that says in a message what is wrong. */
export class Complaint extends Error {
  /** @param {Words} said */
  constructor(said) {
    super(String(said));
    this.message = /** @type {string & Message} */ (said); // Error keeps only the text
  }
}

/**
 * The sentence for one thing or for several; `{count}` is how many there are.
 * @type {(key: string, count: number, places?: Places) => Message}
 */
export function plural(key, count, places = {}) {
  return message(`${key}.${count === 1 ? 'one' : 'many'}`, { count, ...places });
}

/**
 * Texts one after the other, linked by the sentence `join.HOW`; empty if there are none.
 * @type {(how: string, parts: Words[]) => Words}
 */
export function linked(how, parts) {
  return parts.length > 0 ? parts.reduce((front, last) => message(`join.${how}`, { front, last })) : '';
}

/**
 * Whether two texts are the same, of which each may be a message.
 * @type {(one: Words, other: Words) => boolean}
 */
export function isSame(one, other) {
  return String(one) === String(other);
}

/**
 * The text of a key. What goes into a place whose name begins with a capital begins with a capital too.
 * @type {(key: string, places: Places) => string}
 */
function written(key, places) {
  const sentence = ENGLISH.get(key);
  if (sentence === undefined) throw new RangeError(`the catalogue has no ${key}`);
  return sentence.replace(PLACE, (_, name) => {
    const own = name[0].toLowerCase() + name.slice(1);
    if (places[own] === undefined) throw new RangeError(`${key} has no ${own}`);
    const text = String(places[own]);
    return own === name ? text : text.charAt(0).toUpperCase() + text.slice(1);
  });
}
