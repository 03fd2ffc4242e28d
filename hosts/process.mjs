/**
 * Runs the program as a WebAssembly module (bin/wasm/dgt_replay.wasm) that goes on while bytes come: where it reads and nothing is
 * there, it is suspended until there is. The host of hosts/wasm.c, for a browser with JavaScript Promise Integration.
 *
 *     const { push, end, kill, ended } = start(program, ["live"], (bytes) => show(bytes));
 *     await push(bytes);
 *
 * Each process has an instance, a memory and a stack of its own. A suspended one that is forgotten is never collected: kill it.
 */

/** @typedef {ReturnType<typeof start>} Process */

const OUTPUT = 1; // the number of standard output; standard input is 0, standard error 2
const NONE = -1n; // there is no such argument
const TOO_LONG = -2n; // it is longer than the room for it
const TURN = 8; // milliseconds that it reads on while others may wait

/** Whether this browser can suspend a program. */
export function suspends() {
  return typeof WebAssembly.Suspending === "function" && typeof WebAssembly.promising === "function";
}

/**
 * Starts the program.
 *
 * @param {WebAssembly.Module} program
 * @param {string[]} words the arguments: a subcommand and its options
 * @param {(bytes: Uint8Array) => void} wrote gets what it writes on standard output, in its own memory, which is other bytes' soon; an
 *   exception there ends the process
 * @param {number} most the bytes of memory that it may have: where it needs more, its status is 4
 * @returns `push(bytes)`, which it reads next: the promise ends when it has read them; `end()`, after which no more come; `kill()`; and
 *   `ended`, with { status, errors } when it has ended. It fails where the process was killed, or its stack of 1 MiB doesn't suffice
 */
export function start(program, words, wrote, most = 2 ** 32) {
  const list = ["dgt_replay", ...words].map((word) => new TextEncoder().encode(word));
  const decoder = new TextDecoder();
  /** @type {{ bytes: Uint8Array, done: (read?: unknown) => void }[]} */
  const given = []; // parts that it hasn't read
  /** @type {((value?: unknown) => void) | null} */
  let wake = null; // ends the wait of the read that has nothing
  /** @type {Error | null} */
  let killed = null;
  let isWhole = false; // whether no more comes
  let turn = performance.now();
  let errors = "";
  /**
   * Bytes of the module's memory. The memory that it had before it grew is gone, so they are looked up in each call.
   *
   * @type {(at: bigint, length: bigint | number) => Uint8Array}
   */
  const bytes = (at, length) => {
    const { memory } = /** @type {WebAssembly.Instance} */ (instance).exports;
    return new Uint8Array(/** @type {WebAssembly.Memory} */ (memory).buffer, Number(at), Number(length));
  };
  const host = {
    read: new WebAssembly.Suspending(async (_stream, at, length) => {
      if (performance.now() - turn > TURN) {
        await scheduler.postTask(() => {
          turn = performance.now();
        });
      }
      while (given.length === 0 && !killed && !isWhole) {
        await new Promise((go) => {
          wake = go;
        });
        turn = performance.now();
      }
      if (killed) {
        throw killed;
      }
      if (given.length === 0) {
        return 0n;
      }
      const [part] = given;
      const taken = part.bytes.subarray(0, Number(length));
      part.bytes = part.bytes.subarray(taken.length);
      bytes(at, taken.length).set(taken);
      if (part.bytes.length === 0) {
        given.shift();
        part.done();
      }
      return BigInt(taken.length);
    }),
    /** @type {(stream: number, at: bigint, length: bigint) => bigint} */
    write(stream, at, length) {
      const written = bytes(at, length);
      if (stream === OUTPUT) {
        wrote(written);
      } else {
        errors += decoder.decode(written, { stream: true });
      }
      return length;
    },
    arg_count: () => BigInt(list.length),
    /** @type {(index: bigint, at: bigint, length: bigint) => bigint} */
    arg(index, at, length) {
      const word = list[Number(index)];
      if (word === undefined) {
        return NONE;
      }
      const part = word.subarray(0, Number(length));
      bytes(at, part.length).set(part);
      return part.length === word.length ? BigInt(word.length) : TOO_LONG;
    },
  };
  /** @type {WebAssembly.Instance | null} */
  let instance = new WebAssembly.Instance(program, { host });
  const ended = WebAssembly.promising(instance.exports.start)(BigInt(most)).then((status) => ({ status, errors }));
  const free = () => {
    instance = null; // its memory may be collected, whoever still has the process
  };
  ended.then(free, free);
  const rouse = () => {
    if (wake) {
      wake();
    }
    wake = null;
  };
  return {
    ended,
    /** @type {(more: Uint8Array) => Promise<unknown>} */
    push(more) {
      if (more.length === 0) {
        return Promise.resolve();
      }
      const read = new Promise((done) => {
        given.push({ bytes: more, done });
      });
      rouse();
      return read;
    },
    end() {
      isWhole = true;
      rouse();
    },
    kill() {
      killed = new Error("killed");
      rouse();
    },
  };
}
