#!/usr/bin/env bash
# Compares what `record` writes with Debian's pgn-extract, which is installed where it is missing: a hundred games of random
# legal moves from five starts. pgn-extract reads each game without a complaint, writes the same SAN and results, and
# finds the same squares for every move. Outside the gate, since it needs the network once.
set -euo pipefail
cd "$(dirname "$0")/.."
count=${1:-100}
work=$(mktemp -d)
trap 'rm -rf "$work"' EXIT

tests/outside.py install pgn-extract
extract=$(tests/outside.py path pgn-extract)
bench/random_games.py "$count" "$work"

# silent but for complaints
"$extract" -s "$work/games.pgn" -w1000000 -o "$work/san.pgn" 2> "$work/complaints"
"$extract" -s "$work/games.pgn" -Wuci -C -w1000000 -o "$work/uci.pgn" 2>> "$work/complaints"
if [ -s "$work/complaints" ]; then
    echo 'pgn-extract complains:' >&2
    head -5 "$work/complaints" >&2
    exit 1
fi

# the movetexts as one line a game
movetexts() {
    awk '/^\[/ { next } /^$/ { if (line != "") { print line; line = "" } next } { line = line (line == "" ? "" : " ") $0 } END { if (line != "") print line }' "$1"
}
movetexts "$work/games.pgn" > "$work/ours"
# pgn-extract puts spaces inside a comment's braces
movetexts "$work/san.pgn" | sed -E 's/\{ ([^}]*) \}/{\1}/g' > "$work/theirs"
[ "$(wc -l < "$work/ours")" -eq "$count" ] || { echo 'not so many games' >&2; exit 1; }
diff "$work/ours" "$work/theirs" > "$work/diff" || { echo 'pgn-extract writes other movetexts:' >&2; head -5 "$work/diff" >&2; exit 1; }

# the moves by their squares, without numbers and markers, and with small letters for promotions
movetexts "$work/uci.pgn" | tr QRBN qrbn | sed -E 's/[0-9]+\.+ //g; s/ ?(1-0|0-1|1\/2-1\/2|\*)$//; s/ +/ /g' > "$work/their_squares"
sed -E 's/ $//' "$work/squares" > "$work/our_squares"
diff "$work/our_squares" "$work/their_squares" > "$work/diff" || { echo 'pgn-extract finds other squares:' >&2; head -5 "$work/diff" >&2; exit 1; }

echo "$count games, $(wc -w < "$work/our_squares") moves: pgn-extract agrees on every one"
