#!/bin/sh
# The library beside the independent model (rust/model): generated cases, tables with spoiled bytes, forged sessions, long batches,
# calls on desks and on the builder, and files built, received and checked from one seed, some minutes' worth; the whole grid of R-2;
# every byte that a desk is lent (R-5) and that the builder is (R-6); a file to the byte past the size limit; and each planted fault has
# to be found within the same cases.
# usage: sh tests/compare.sh [SEED [CASES]]     (LENTILPOT_LIB: a folder with libedge.a and libdesk_edge.a; where it isn't set both are
# made)
set -eu
[ -z "${LENTILPOT_LIB:-}" ] || LENTILPOT_LIB=$(cd "$LENTILPOT_LIB" && pwd)
cd "$(dirname "$0")/.."
seed=${1:-1} cases=${2:-100000}
command -v cargo >/dev/null 2>&1 || { echo "compare: 'cargo' is not on the PATH." >&2; exit 2; }
work=$(mktemp -d)
beside=
# A shell has its background jobs ignore Ctrl-C, so the run beside is ended here.
leave() {
    [ -z "$beside" ] || { kill "$beside" && wait "$beside"; } 2>/dev/null || true
    rm -rf "$work"
}
trap leave EXIT
trap 'exit 129' HUP
trap 'exit 130' INT
trap 'exit 143' TERM
quiet() { "$@" >"$work/log" 2>&1 || { cat "$work/log" >&2; exit 1; }; }
if [ -z "${LENTILPOT_LIB:-}" ]; then
    quiet sh scripts/nativelib edge
    quiet sh scripts/nativelib desk_edge
    LENTILPOT_LIB=$PWD/target/native
fi
export LENTILPOT_LIB
cd rust
quiet cargo test --release --locked --offline --quiet -j 1 -p model -p compare
quiet cargo build --release --locked --offline --quiet -j 1 -p compare

# Two runs side by side: the first is begun, and ended with the second.
begin() { # WORDS..
    target/release/compare "$@" >"$work/beside" 2>&1 &
    beside=$!
}
one() { # WORDS..
    target/release/compare "$@" || exit 1
}
end() { # WORDS..
    one "$@"
    wait "$beside" || { cat "$work/beside" >&2; exit 1; }
    beside=
    cat "$work/beside"
}
# Most of the cases in two parts, side by side; then, side by side too, the grid, and what together takes as long: a file to the byte
# past the size limit and several ways past it, the desk's and the builder's bytes, the planted faults, and the rest of the cases.
part=$((cases * 3 / 8))
begin "$seed" "$part"
end $((seed + part)) "$part"
begin grid
one size
one desk
one build
one planted "$seed" "$cases"
end $((seed + 2 * part)) $((cases - 2 * part))
