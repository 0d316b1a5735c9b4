#!/bin/sh
# Runs `pcalc step` on a script of N lines (1,000,000 by default), on one of twice as many, and on one of N lines over 200,000
# keys instead of 1,000, and prints for each its lines a second and its peak memory. Fails if twice the lines take more than 2.3
# times the time, or the many keys more than 1.3 times.
# Build the program first: `rt run -- step ../../examples/first.pcs` in the folder crates/pcalc.
set -u
cd "$(dirname "$0")/.." || exit 1
note=
lines=1000000
for word in "$@"; do
    case $word in
    --note) note=$word ;;
    *) lines=$word ;;
    esac
done
program=crates/pcalc/out/pcalc
if [ ! -x "$program" ]; then
    echo "$program is not there: build it first" >&2
    exit 1
fi
folder=$(mktemp -d) || exit 1
trap 'rm -rf "$folder"' EXIT
python3 bench/step.py "$program" "$lines" "$folder" $note
