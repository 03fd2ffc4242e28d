#!/usr/bin/env bash
# Compares `record` with `sha256sum` on streams of 48 MB (bench/streams.py): medians of five runs by turns, what they write goes
# nowhere. It is to take at most half of its processor time on an idle and on a played stream, and no more on a fumbled one.
# Compares `recover` with `record`, of whose time it is to take at most one and a half times; and measures once, with nothing
# asked of them, the first MiB of the streams that are the worst for it that anyone has thought of.
set -euo pipefail

cd "$(dirname "$0")/.."
runs=${1:-5}
. bench/timing.sh

program=$(bin/program)
python3 bench/streams.py "$work" idle played fumbled

processor
for stream in idle played fumbled; do
    printf '%-8s' "$stream"
    "$program" record < "$work/$stream" 2>&1 > /dev/null | tail -n 1
done
heading 'record, by stream' sha256sum
beside idle 0.5 "$work/idle" "$program record" sha256sum
beside played 0.5 "$work/played" "$program record" sha256sum
beside fumbled 1.0 "$work/fumbled" "$program record" sha256sum
heading 'recover, by stream' record
for stream in played fumbled; do
    beside "recover $stream" 1.5 "$work/$stream" "$program recover" "$program record"
    rm "$work/$stream"
done
for stream in promoted lifted queens; do
    python3 bench/streams.py "$work" "$stream"
    fen=$(cd bench && python3 -c "import streams; print(streams.${stream^^})")
    head -c 1048576 "$work/$stream" > "$work/part"
    /usr/bin/time -f "recover $stream, first MiB: %U s, peak %M KiB" "$program" recover --fen "$fen" < "$work/part" > /dev/null
    rm "$work/$stream"
done
verdicts
