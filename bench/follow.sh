#!/usr/bin/env bash
# Compares `follow` with `show` on streams of 48 MB (bench/streams.py) of a game that is played with hands: medians of five runs
# by turns, what they write goes nowhere. It is to take at most one and a half times `show`'s processor time; and `watch`, which writes
# the lines of `follow` and more, at most one and a half times that of `follow`.
set -euo pipefail

cd "$(dirname "$0")/.."
runs=${1:-5}
. bench/timing.sh

program=$(bin/program)
python3 bench/streams.py "$work" played fumbled

processor
heading 'follow, by stream' 'show'
for stream in played fumbled; do
    beside "follow $stream" 1.5 "$work/$stream" "$program follow" "$program show"
done
heading 'watch, by stream' 'follow'
for stream in played fumbled; do
    beside "watch $stream" 1.5 "$work/$stream" "$program watch" "$program follow"
done
verdicts
