#!/bin/bash
# The sample bank: each listing, what the table holds at the end and what a refused file's sender is told are as samples/expected/ has them.
set -eu
root=$(cd "$(dirname "$0")/.." && pwd -P)
program=${PROGRAM:-$root/target/program/lentilpot}
bureau_program=${BUREAU:-$root/target/program/bureau}
work=$(mktemp -d)
trap 'rm -rf "$work"' EXIT
sh "$root/samples/run" "$program" "$bureau_program" >"$work/out" 2>&1 || { cat "$work/out" >&2; exit 1; }
[ "$(tail -n 1 "$work/out")" = "All replies are as expected." ] || { cat "$work/out" >&2; exit 1; }
echo "tests/sample: ok"
