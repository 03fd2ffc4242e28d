#!/usr/bin/env bash
# Times see and see_field of the crate settle_core by `bench_calls settling`, from outside, beside a memory copy of as many
# pictures of 64 bytes: medians of eleven runs by turns, process start included.
set -euo pipefail
cd "$(dirname "$0")/.."
runs=${1:-11}
. bench/timing.sh

(cd crates/bench_calls && rt run -- settling copy 1 > "$work/build.log")
program='crates/bench_calls/out/bench_calls settling'

processor
heading 'bench_calls, by task' copy
for task in 'pictures 1000000' 'updates 1000000' 'plies 100000'; do
    read -r -a words <<< "$program $task"
    [ "$("${words[@]}")" = "$task" ] || { echo "settling $task: another count" >&2; exit 1; }
    beside "$task" - /dev/null "$program $task" "$program copy ${task#* }"
done
