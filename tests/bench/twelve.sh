#!/usr/bin/env bash
# Runs the bench in twelve processes, one after the other, and folds what they measured into rows
# for docs/BENCHMARKS.md. PIRKVEZO_BENCH_PROCESSES sets another number of processes.
set -euo pipefail
here=$(cd "$(dirname "${BASH_SOURCE[0]}")" && pwd -P)
processes=${PIRKVEZO_BENCH_PROCESSES:-12}
if ! [[ $processes =~ ^[1-9][0-9]{0,2}$ ]]; then
    echo "PIRKVEZO_BENCH_PROCESSES is no number from 1 to 999: $processes" >&2
    exit 1
fi

work=$(mktemp -d)
trap 'rm -rf "$work"' EXIT
printed=()
for ((process = 1; process <= processes; process++)); do
    echo "process $process of $processes" >&2
    "$here/run.sh" --tsv >"$work/$process.tsv"
    printed+=("$work/$process.tsv")
done
"$here/run.sh" --fold "${printed[@]}"
