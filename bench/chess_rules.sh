#!/usr/bin/env bash
# Times legal_moves and play of the crate chess_rules by `bench_calls rules`, from outside, beside the plain Rust program
# bench/perft.rs, which counts the same: medians of eleven runs by turns. It is to take no more processor time. Beside both, where
# it is installed, stockfish: an engine with bitboards, with the perft of its own, to depth 6 of the initial position.
set -euo pipefail
cd "$(dirname "$0")/.."
runs=${1:-11}
. bench/timing.sh

(cd crates/bench_calls && rt run -- rules > "$work/build.log")
program=crates/bench_calls/out/bench_calls
rustc -O -o "$work/plain" bench/perft.rs
"$work/plain" > "$work/counts"
"$program" rules | cmp - "$work/counts"
echo "$(awk '{ sum += $3 } END { print sum }' "$work/counts") lines of legal moves"

processor
heading bench_calls 'plain Rust'
beside rules 1.0 /dev/null "$program rules" "$work/plain"

engine=$(command -v stockfish || command -v /usr/games/stockfish || true)
if [ -n "$engine" ]; then
    # deeper, since its start alone takes longer than these counts
    printf 'position startpos\ngo perft 6\nquit\n' > "$work/deep"
    python3 bench/turns.py 3 "$work/deep" "$engine" | awk '{ printf "stockfish: 119,060,324 lines in %.1f ms\n", $1 }'
fi
verdicts
