// The board's protocol, as far as a recorder needs it: the dump of a picture. What frames mean is the program's to say.

export const DUMP_ID = 0x86;
export const DUMP_SIZE = 67;

export const LETTERS = '.PRNBKQprnbkq*'; // by piece code; `*` is one of the codes 13 to 15, which no position has
/** The squares by number: a8 is 0, h8 is 7, h1 is 63. */
export const SQUARES = [...'87654321'].flatMap((rank) => [...'abcdefgh'].map((file) => file + rank));

/** @type {(made: Uint8Array) => Uint8Array[]} in bytes that the program has made, where each 86 begins one */
export function dumpsIn(made) {
  const starts = [...made.keys()].filter((at) => made[at] === DUMP_ID && at + DUMP_SIZE <= made.length);
  return starts.map((at) => made.slice(at, at + DUMP_SIZE));
}

/** @type {(text: string) => number[]} of a FEN, its first field, or a line of `pictures`; throws RangeError for anything else */
export function pictureOfPlacement(text) {
  const codes = [];
  const ranks = text.split(' ')[0].split('/');
  for (const rank of ranks) {
    const before = codes.length;
    for (const letter of rank) {
      if (letter >= '1' && letter <= '8') {
        for (let count = Number(letter); count > 0; count -= 1) codes.push(0);
      } else {
        const code = LETTERS.indexOf(letter, 1);
        if (code < 0) throw new RangeError(`no piece: ${text}`);
        codes.push(code);
      }
    }
    if (codes.length - before !== 8) throw new RangeError(`not eight squares in a rank: ${text}`);
  }
  if (ranks.length !== 8) throw new RangeError(`not eight ranks: ${text}`);
  return codes;
}

/** @type {(one: number[], other: number[]) => string[]} the squares on which they differ, in the order a8, b8, .. h1 */
export const differing = (one, other) => SQUARES.filter((square, at) => one[at] !== other[at]);

/** @type {(one: number[] | Uint8Array, other: number[] | Uint8Array) => boolean} whether two pictures, or two frames, are the same */
export const same = (one, other) => one.length === other.length && one.every((code, at) => code === other[at]);

/** @type {(...parts: Uint8Array[]) => Uint8Array} the parts, one after the other */
export function joined(...parts) {
  const whole = new Uint8Array(parts.reduce((length, part) => length + part.length, 0));
  let at = 0;
  for (const part of parts) {
    whole.set(part, at);
    at += part.length;
  }
  return whole;
}

/** @type {(sent: Uint8Array, end: number) => number} where the frame begins that has its last byte there: only its first byte has its top bit set */
export function frameAt(sent, end) {
  let at = end;
  while (sent[at] < 0x80) at -= 1;
  return at;
}
