/**
 * Runs the program as a WebAssembly module (bin/wasm/dgt_replay.wasm), in a browser or in node: the host of hosts/wasm.c.
 *
 *     const program = await WebAssembly.compile(bytes);
 *     const { status, output, errors } = run(program, ["record"], capture);
 *
 * Each run has an instance and a memory of its own, so nothing is left of one that failed. The module needs a browser with
 * 64-bit memory and 64-bit tables: see docs/WORKING.md.
 */

const OUTPUT = 1; // the number of standard output; standard input is 0, standard error 2
const NONE = -1n; // there is no such argument
const TOO_LONG = -2n; // it is longer than the room for it

/**
 * The parts one behind the other.
 *
 * @param {Uint8Array[]} parts
 */
export function joined(parts) {
  const whole = new Uint8Array(parts.reduce((length, part) => length + part.length, 0));
  let at = 0;
  for (const part of parts) {
    whole.set(part, at);
    at += part.length;
  }
  return whole;
}

/**
 * Runs the program once.
 *
 * @param {WebAssembly.Module} program
 * @param {string[]} words the arguments: a subcommand and its options
 * @param {Uint8Array} input what it reads on standard input
 * @param {number} most the bytes of memory that it may have: where it needs more, its status is 4
 * @returns {{status: number, output: Uint8Array, errors: Uint8Array}} its exit status, and what it has written
 * @throws {WebAssembly.RuntimeError} where its stack of 1 MiB doesn't suffice
 */
export function run(program, words, input, most = 2 ** 32) {
  const encoder = new TextEncoder();
  const list = ["dgt_replay", ...words].map((word) => encoder.encode(word));
  /** @type {Uint8Array[]} */
  const output = [];
  /** @type {Uint8Array[]} */
  const errors = [];
  let read = 0;
  /**
   * Bytes of the module's memory. The memory that it had before it grew is gone, so they are looked up in each call.
   *
   * @type {(at: bigint, length: bigint | number) => Uint8Array}
   */
  const bytes = (at, length) => {
    const memory = /** @type {WebAssembly.Memory} */ (instance.exports.memory);
    return new Uint8Array(memory.buffer, Number(at), Number(length));
  };
  const host = {
    /** @type {(_stream: number, at: bigint, length: bigint) => bigint} */
    read(_stream, at, length) {
      const part = input.subarray(read, read + Math.min(Number(length), input.length - read));
      bytes(at, part.length).set(part);
      read += part.length;
      return BigInt(part.length);
    },
    /** @type {(stream: number, at: bigint, length: bigint) => bigint} */
    write(stream, at, length) {
      (stream === OUTPUT ? output : errors).push(bytes(at, length).slice());
      return length;
    },
    arg_count: () => BigInt(list.length),
    /** @type {(index: bigint, at: bigint, length: bigint) => bigint} */
    arg(index, at, length) {
      const word = list[Number(index)];
      if (word === undefined) {
        return NONE;
      }
      const part = word.subarray(0, Number(length));
      bytes(at, part.length).set(part);
      return part.length === word.length ? BigInt(word.length) : TOO_LONG;
    },
  };
  const instance = new WebAssembly.Instance(program, { host });
  const begin = /** @type {(most: bigint) => number} */ (instance.exports.start);
  const status = begin(BigInt(most));
  return { status, output: joined(output), errors: joined(errors) };
}
