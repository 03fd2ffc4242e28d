#!/usr/bin/env bash
# Times `check` on games of 1,250 to 9,999 moves, from outside, beside Debian's pgn-extract, which reads and writes the same
# text and is installed where it is missing: medians of 21 runs by turns. `check` is to take no more processor time, and twice
# the moves about twice the time.
set -euo pipefail
cd "$(dirname "$0")/.."
runs=${1:-21}
. bench/timing.sh

program=$(bin/program)
tests/outside.py install pgn-extract
extract=$(tests/outside.py path pgn-extract)

# a game of so many moves by the four knights, in export form
long_game() {
    awk -v moves="$1" 'BEGIN {
        split("Nf3 Nf6 Ng1 Ng8 Nc3 Nc6 Nb1 Nb8", san, " ")
        printf "[Event \"?\"]\n[Site \"?\"]\n[Date \"????.??.??\"]\n[Round \"?\"]\n[White \"?\"]\n[Black \"?\"]\n[Result \"*\"]\n\n"
        for (i = 1; i <= moves; i++) {
            put(i "."); put(san[(2 * i - 2) % 8 + 1]); put(san[(2 * i - 1) % 8 + 1])
        }
        put("*"); printf "\n\n"
    }
    function put(token) {
        if (column == 0) { printf "%s", token; column = length(token) }
        else if (column + 1 + length(token) <= 79) { printf " %s", token; column += 1 + length(token) }
        else { printf "\n%s", token; column = length(token) }
    }'
}

processor
heading 'check, by moves' pgn-extract
for moves in 1250 2500 5000 9999; do
    long_game "$moves" > "$work/game"
    beside "$moves" 1.0 "$work/game" "$program check" "$extract -s -w79"
done
verdicts
