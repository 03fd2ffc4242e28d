#!/usr/bin/env bash
# Compares `show` and `pictures` with `xxd -p` on streams of 48 MB (bench/streams.py): medians of five runs by turns, what they
# write goes nowhere. Each is to take at most half of its processor time on an idle, a played and a fumbled stream; dumps and
# faults stand beside them. Then counts the writes of `show` where each byte is a fault, if strace is there.
set -euo pipefail

cd "$(dirname "$0")/.."
runs=${1:-5}
. bench/timing.sh

program=$(bin/program)
python3 bench/streams.py "$work"

processor
for word in show pictures; do
    heading "$word, by stream" 'xxd -p'
    for stream in idle played fumbled; do
        beside "$word $stream" 0.5 "$work/$stream" "$program $word" 'xxd -p'
    done
    for stream in dumps faults; do
        beside "$word $stream" - "$work/$stream" "$program $word" 'xxd -p'
    done
done

if command -v strace > "$work/which"; then
    text=$("$program" show < "$work/faults" | wc -c)
    strace -c -e trace=write -o "$work/calls" "$program" show < "$work/faults" > /dev/null
    writes=$(awk '$NF == "write" { print $4 }' "$work/calls")
    echo "$text $writes" | awk '{ printf "faults: %d bytes of text in %d writes, %.2f writes for 4 KiB\n", $1, $2, $2 * 4096 / $1 }'
else
    echo 'faults: no strace here, so the writes are not counted'
fi
verdicts
