#!/usr/bin/env bash
# Runs tests/run in a clean clone of the last commit, and prints where the processor time went: for each crate its proof,
# the proof of its tests, its wrong bodies and definitions; last the sums, and the machine. It watches from
# outside, and changes nothing of what is run. Each single check stands in build/gate/checks.tsv, what tests/run printed in
# build/gate/log. The status is that of tests/run.
set -euo pipefail

cd "$(dirname "$0")/.."
. bench/timing.sh

mkdir -p build/gate
git clone --quiet --no-hardlinks . "$work/clone"
status=0
python3 bench/gate_times.py "$work/clone" build/gate || status=$?
echo
echo "commit: $(git -C "$work/clone" rev-parse --short HEAD)"
processor
exit "$status"
