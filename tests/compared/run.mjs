/**
 * In a browser: runs the program for each call of a list that /calls has, as JSON.
 *
 * A call is {"words": [..], "input": base64, "length": bytes, "most": bytes of memory}. An input with a length is repeated up
 * to it; without `most` a run has as much memory as `run` gives it. The answers are {"status", "output", "errors", "seconds"},
 * both texts in base64; where an error was thrown, it is the status.
 */
import { start } from "/hosts/process.mjs";
import { run } from "/hosts/wasm.mjs";

const program = WebAssembly.compileStreaming(fetch("/dgt_replay.wasm"));

const bytes_of = (base64) => Uint8Array.from(atob(base64), (letter) => letter.charCodeAt(0));

function base64_of(bytes) {
  const letters = [];
  for (let at = 0; at < bytes.length; at += 4096) {
    letters.push(String.fromCharCode(...bytes.subarray(at, at + 4096)));
  }
  return btoa(letters.join(""));
}

function input_of(call) {
  const part = bytes_of(call.input);
  const whole = new Uint8Array(call.length ?? part.length);
  for (let at = 0; at < whole.length; at += part.length) {
    whole.set(part.subarray(0, whole.length - at), at);
  }
  return whole;
}

export async function answers() {
  const module = await program;
  const calls = await (await fetch("/calls")).json();
  return calls.map((call) => {
    const input = input_of(call);
    const begun = performance.now();
    let answer;
    try {
      const { status, output, errors } = run(module, call.words, input, call.most);
      answer = { status, output: base64_of(output), errors: base64_of(errors) };
    } catch (error) {
      answer = { status: String(error), output: "", errors: "" };
    }
    return { ...answer, seconds: (performance.now() - begun) / 1000 };
  });
}

/** What a process answers that is given parts of its input, each when it has read the one before, and ends by itself or behind the last. */
export async function goes_on() {
  const { words, parts } = await (await fetch("/parts")).json();
  const written = [];
  const going = start(await program, words, (bytes) => written.push(...bytes));
  for (const part of parts) {
    await Promise.race([going.push(bytes_of(part)), going.ended]);
    await new Promise((next) => setTimeout(next));
  }
  going.end();
  const { status, errors } = await going.ended;
  return { status, output: base64_of(Uint8Array.from(written)), errors };
}

/** Starts processes until there is no room for one more, and ends them: how many there were, and whether there is room again. */
export async function many() {
  const module = await program;
  const going = [];
  const begins = () => start(module, ["live"], () => {});
  try {
    while (going.length < 1000) {
      going.push(begins());
    }
  } catch (error) {
    if (!(error instanceof RangeError)) {
      throw error;
    }
  }
  going.forEach(({ kill }) => kill());
  const ends = await Promise.all(going.map(({ ended }) => ended.catch((error) => error.message)));
  for (let tries = 0; tries < 100; tries += 1) {
    await new Promise((next) => setTimeout(next, 100));
    try {
      begins().ended.catch(() => {});
      return { most: going.length, killed: ends.filter((why) => why === "killed").length, again: true };
    } catch {
      // The browser hasn't given the room back yet.
    }
  }
  return { most: going.length, again: false };
}
