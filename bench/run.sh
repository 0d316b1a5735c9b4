#!/bin/sh
# Measures `pcalc run`, as bench/run.py says. Build the programs first: `.ci/run` does, or `rt run` in the folders crates/pcalc and crates/bench_calls.
set -u
cd "$(dirname "$0")/.." || exit 1
for name in pcalc bench_calls; do
    if [ ! -x "crates/$name/out/$name" ]; then
        echo "crates/$name/out/$name is not there: build it first" >&2
        exit 1
    fi
done
python3 bench/run.py "$@"
