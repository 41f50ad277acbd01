#!/bin/bash
# Kills `bureau make` and `bureau check` at many moments. After each: the desk is the old one or the new one, whole; what is left over is mended by the command that the
# next run prints, typed in another folder; a saved desk has its file, whole, and no stamp is made twice; a key that a reply enclosed is kept or the reply can be checked again.
set -eu
root=$(cd "$(dirname "$0")/.." && pwd -P)
program=${PROGRAM:-$root/target/program/lentilpot}
bureau_program=${BUREAU:-$root/target/program/bureau}
moments=${MOMENTS:-60}
. "$root/samples/bank.sh"
. "$root/samples/desk.sh"
work=$(cd "$(mktemp -d)" && pwd -P)
trap 'rm -rf "$work"' EXIT
cd "$work"
mkdir a b c
delay=none
fail() { echo "tests/bureau_kill: after $delay s: $*" >&2; ls -la a b >&2; cat a/d.lock told >&2 2>/dev/null; exit 1; }

make_bank bank.table >made
make_desk old >made
awk 'BEGIN { for (i = 0; i < 1500; i++) printf "%-72s%07d \n", "A RECORD OF EIGHTY CHARACTERS", i }' >records
words="941017 080000 0000000000000100 SKH"
timed() { # WORDS..
    began=$(date +%s%N)
    got=0
    "$@" || got=$?
    took=$((($(date +%s%N) - began) / 1000))
    return $got
}
cp old new
# shellcheck disable=SC2086
timed bureau make new $words whole.file records records --ask >whole.said
lentilpot receive bank.table 941017 091500 1 0000000000000001 whole.file replies >listing || fail "the bank refuses the file"
cp new checked
bureau check checked replies >whole.listing || fail "the replies don't pass"
grep -q 'the enclosed working key is kept' whole.listing || fail "no key was enclosed"

olds=0 news=0 locks=0 unchanged=0 standing=0 finished=0 others=0
mended() {
    command=$(sed -n 's/.*To mend: //p' told)
    [ -n "$command" ] || fail "no mend is told"
    (cd c && eval "$command") || fail "the mend '$command' failed"
    case $(cat told) in
    *"did not change the desk"*) unchanged=$((unchanged + 1)) ;;
    *"its messages stand"*) standing=$((standing + 1)) ;;
    *"its messages are in"*) finished=$((finished + 1)) ;;
    *) others=$((others + 1)) ;;
    esac
}
# The desk is one of two, and can be read.
state_of() { # OLD NEW
    { bureau show a/d >shown 2>&1 && grep -q '^files made' shown; } || fail "the desk isn't whole"
    if cmp -s a/d "$2"; then state=new; elif cmp -s a/d "$1"; then state=old; else fail "the desk is neither the old nor the new one"; fi
}
# What is left is told by the next run, which changes nothing.
mend_all() {
    turns=0
    while [ -e a/d.lock ] || [ -e b/f.run ]; do
        turns=$((turns + 1))
        [ $turns -le 4 ] || fail "mends don't end"
        locks=$((locks + 1))
        cp a/d before
        got=0
        bureau make a/d 941018 080000 0000000000000100 SKH b/f records >out 2>told || got=$?
        { [ $got -eq 2 ] && [ ! -s out ] && cmp -s a/d before; } || fail "a run went on over what was left"
        mended
    done
    for left in a/d.lock a/d.new b/f.new b/f.run; do [ ! -e $left ] || fail "$left is still left over"; done
}
at_moment() { # I
    delay=$(awk -v n="$1" -v m="$moments" -v t=$took 'BEGIN { printf "%.6f", (n % 2 ? n * 1.3 * t / m : (0.8 + 0.3 * n / m) * t) / 1000000 }')
}

i=0
while [ $i -lt "$moments" ]; do
    i=$((i + 1))
    at_moment $i
    rm -rf a b
    mkdir a b
    cp old a/d
    # shellcheck disable=SC2086
    timeout --foreground -s KILL "$delay" sh "$root/scripts/runbin" "$bureau_program" make a/d $words b/f records records --ask >said 2>/dev/null || true
    state_of old new
    first=$state
    [ ! -s said ] || [ $first = new ] || fail "a file was told and the desk is the old one"
    mend_all
    if [ $first = new ]; then
        news=$((news + 1))
        cmp -s b/f whole.file || fail "the file of the saved desk is missing"
    else
        olds=$((olds + 1))
        [ ! -e b/f ] || fail "there is a file and the desk is the old one"
    fi
    # the same words once more: the stamps are made now only if they were not before
    got=0
    # shellcheck disable=SC2086
    timed bureau make a/d $words b/again records records --ask >out 2>told || got=$?
    if [ $first = new ]; then
        { [ $got -eq 2 ] && grep -q 'expected a time after that of the last file' told; } || fail "stamps were made twice"
        timed bureau show a/d >/dev/null
    else
        { [ $got -eq 0 ] && cmp -s b/again whole.file && cmp -s a/d new; } || fail "the file isn't made after a run that changed nothing"
    fi
done
{ [ $olds -gt 0 ] && [ $news -gt 0 ]; } || fail "every moment gave the same desk: $olds old, $news new"

checks=0 kept=0
cp new a/d
timed bureau check a/d replies >/dev/null
i=0
while [ $i -lt $((moments / 2)) ]; do
    i=$((i + 1))
    delay=$(awk -v n=$i -v m="$moments" -v t=$took 'BEGIN { printf "%.6f", 2.6 * n * t / m / 1000000 }')
    rm -rf a b
    mkdir a b
    cp new a/d
    timeout --foreground -s KILL "$delay" sh "$root/scripts/runbin" "$bureau_program" check a/d replies >said 2>/dev/null || true
    state_of new checked
    [ ! -s said ] || [ $state = new ] || fail "replies were told and the key is not kept"
    [ $state = old ] || kept=$((kept + 1))
    mend_all
    checks=$((checks + 1))
    bureau check a/d replies >out 2>told || fail "the replies don't pass any more"
    cmp -s a/d checked || fail "the key of the replies is lost"
done
echo "bureau_kill: $moments kills of make: $olds with the old desk, $news with the new one and its file; no stamp made twice. $checks kills of check, $kept after the desk was saved; no key lost"
echo "bureau_kill: $locks locks left; by the command told were mended $unchanged that had not changed the desk, $standing that had saved it, $finished that had named the file too, $others others"
