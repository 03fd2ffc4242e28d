#!/usr/bin/env bash
# Times write_san and read_san of the crate chess_text by `bench_calls san`, five hundred times over a game of 200 plies
# (crates/bench_calls/stdin), from outside, beside the plain Rust program bench/san.rs, which prints the same counts: medians of
# eleven runs by turns. Before each write_san both ask whether the move is legal. It is to have four fifths of the plain
# program's speed, so 1.25 of its processor time at most.
set -euo pipefail
cd "$(dirname "$0")/.."
runs=${1:-11}
rounds=500
. bench/timing.sh
game=crates/bench_calls/stdin
program=crates/bench_calls/out/bench_calls

(cd crates/bench_calls && rt run -- san write 1 < stdin > "$work/build.log")
rustc -O -o "$work/plain" bench/san.rs

processor
echo "$(($(wc -w < "$game") * rounds)) moves"
heading bench_calls 'plain Rust'
for what in write read; do
    "$program" san "$what" "$rounds" < "$game" > "$work/counts"
    "$work/plain" "$what" "$rounds" < "$game" | cmp - "$work/counts"
    beside "${what}_san" 1.25 "$game" "$program san $what $rounds" "$work/plain $what $rounds"
done
verdicts
