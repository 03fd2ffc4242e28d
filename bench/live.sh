#!/usr/bin/env bash
# Measures the live recorder over simulated boards (bench/live_boards.py), each of which makes a move every two seconds (one alone:
# every half a second): 1, 16 and 48 with a dgt_live each, then 48 with one dgt_round, and the same while 200 spectators read its
# page, as it is and late. With 48 the median of the time to a move's line and to its game is to be under 20 ms, and 99 of 100 under
# 200 ms.
set -euo pipefail

cd "$(dirname "$0")/.."
moves=${1:-600}
. bench/timing.sh

bin/dgt_replay --help > /dev/null
processor
uptime | sed 's/.*load/load/'
printf '%-22s %6s %6s %16s %16s %10s %8s %12s %10s\n' '' '' '' 'line, ms' 'game, ms' processes memory 'processor ms' ''
printf '%-22s %6s %6s %8s %7s %8s %7s %10s %8s %12s %10s\n' recorded\ by boards moves median 99th median 99th 'a board' 'MiB' 'a second' 'a move'

# row NAME BOARDS MOVES PAUSE [round [READERS [DELAY]]]
row() {
    name=$1
    shift
    python3 bench/live_boards.py "$@" > "$work/row"
    awk -v name="$name" -v verdicts="$work/verdicts" '{
        printf "%-22s %6d %6d %8.1f %7.1f %8.1f %7.1f %10.1f %8.1f %12.1f %10.1f\n", name, $1, $2, $3, $4, $5, $6, $7, $8, $9, $10
        if ($1 == 48) {
            split("line line game game", what, " ")
            for (at = 1; at <= 4; at++) {
                goal = at % 2 ? 20 : 200
                asked = name ", " what[at] (at % 2 ? ", median" : ", 99 of 100")
                printf "%s: %.1f ms, under %d: %s\n", asked, $(at + 2), goal, $(at + 2) < goal ? "met" : "not met" >> verdicts
            }
        }
    }' "$work/row"
}

row 'dgt_live' 1 "$((moves / 4))" 0.5
row 'a dgt_live each' 16 "$moves" 2
row 'a dgt_live each' 48 "$moves" 2
row 'one dgt_round' 48 "$moves" 2 round
row 'it, 200 read its page' 48 "$moves" 2 round 200
row 'they, 6 s late' 48 "$moves" 2 round 200 0.1
verdicts
