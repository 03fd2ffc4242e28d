/** Tables of cases in JavaScript: they read the same files as tests/decided does in Python, and count in the same way. */

const LETTERS = ".PRNBKQprnbkq*"; // by piece code

/** A value as JSON has it: what comes never is null, bytes are numbers, a message is a text, and the fields of an object stand in order. */
function plain(value) {
  if (value instanceof String) {
    return String(value);
  }
  if (value === Infinity || value === undefined) {
    return null;
  }
  if (ArrayBuffer.isView(value) || Array.isArray(value) || value instanceof Set) {
    return Array.from(value, plain);
  }
  if (value !== null && typeof value === "object") {
    const fields = Object.keys(value).sort().map((name) => [name, plain(value[name])]);
    return Object.fromEntries(fields);
  }
  return value;
}

/** Counts cases. `failed` says of each what was seen. */
export class Counts {
  passed = 0;
  failed = [];

  same(name, seen, expected) {
    const [one, other] = [seen, expected].map((value) => JSON.stringify(plain(value)));
    if (one === other) {
      this.passed += 1;
    } else {
      this.failed.push(`${name}\n  seen     ${one}\n  expected ${other}`);
    }
  }

  /** A call that must throw an error of this name; what it says. */
  refused(name, error, call) {
    try {
      this.failed.push(`${name}\n  seen     ${JSON.stringify(plain(call()))}\n  expected ${error}`);
    } catch (thrown) {
      if (kinds(thrown).includes(error)) {
        this.passed += 1;
        return thrown.message;
      }
      this.failed.push(`${name}\n  seen     ${thrown}\n  expected ${error}`);
    }
    return "";
  }
}

/** The names of an error's class and of those that it extends. */
function kinds(error) {
  const names = [];
  for (let kind = error?.constructor; kind?.name; kind = Object.getPrototypeOf(kind)) {
    names.push(kind.name);
  }
  return names;
}

/** The bytes that words stand for, as `bytes_of` of tests/decided/cases.py reads them. */
export function bytesOf(text, frames = {}) {
  return Uint8Array.from(text.split(" ").filter(Boolean).flatMap((word) => bytesOfWord(word, frames)));
}

function bytesOfWord(word, frames) {
  if (word in frames) {
    return [...bytesOf(frames[word])];
  }
  if (word.includes("/")) {
    const codes = codesOf(word.split(":").at(-1));
    return [0x86, 0x00, 0x43, ...(word.startsWith("rotated:") ? codes.reverse() : codes)];
  }
  const [value, times] = word.split("*");
  return Array(Number(times ?? 1)).fill(parseInt(value, 16));
}

/** The piece codes of a placement, from a8 to h1. */
export function codesOf(placement) {
  const squares = placement.split(" ")[0].replaceAll("/", "").replace(/[1-8]/g, (digit) => ".".repeat(Number(digit)));
  return [...squares].map((letter) => LETTERS.indexOf(letter));
}

/** The letters of a request. */
export function lettersOf(request) {
  return String.fromCharCode(...request);
}
