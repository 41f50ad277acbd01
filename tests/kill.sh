#!/bin/bash
# Kills `receive` at many moments, on two tables in two folders that use one another's folder for their replies, and the same name for them. After each: the
# tables are old or new, whole; what is left over is mended by the commands that the next runs print, typed in a third folder; the replies of a saved
# table are there; and no stamp is accepted twice.
set -eu
root=$(cd "$(dirname "$0")/.." && pwd -P)
program=${PROGRAM:-$root/target/program/lentilpot}
moments=${MOMENTS:-150}
. "$root/samples/bank.sh"
work=$(cd "$(mktemp -d)" && pwd -P)
trap 'rm -rf "$work"' EXIT
cd "$work"
mkdir a b c
delay=none
fail() { echo "tests/kill: after $delay s: $*" >&2; ls -la a b c >&2; cat a/t.lock b/t.lock told >&2 2>/dev/null; exit 1; }

make_bank old >made
cp old new
# how long a run takes at present, in microseconds
timed() { # WORDS..
    began=$(date +%s%N)
    got=0
    "$@" || got=$?
    took=$((($(date +%s%N) - began) / 1000))
    return $got
}
timed receive new "$root/samples/batches.txt" whole.replies 64 >whole.listing
[ "$(grep -c '^K ' whole.listing)" -eq 21 ] || fail "21 accepted messages were expected"

olds=0 news=0 locks=0 unchanged=0 standing=0 finished=0 others=0 begun=0
# One run on a table, killed after a while: both tables' runs give their replies the same name. Where it is refused, by the other's replies, nothing is left of it.
killed() { # TABLE
    timeout --foreground -s KILL "$delay" sh "$root/scripts/runbin" "$program" receive "$1" 941017 091500 1 0000000000000001 "$root/samples/batches.txt" a/r 64 >"$1.listing" 2>"$1.told" || true
}
# Types the mend that a command told, in a third folder.
mended() {
    command=$(sed -n 's/.*To mend: //p' told)
    [ -n "$command" ] || fail "no mend is told"
    (cd c && eval "$command") || fail "the mend '$command' failed"
    case $(cat told) in
    *"did not change the table"*) unchanged=$((unchanged + 1)) ;;
    *"its replies stand"*) standing=$((standing + 1)) ;;
    *"its replies are in"*) finished=$((finished + 1)) ;;
    *"has just begun"*) begun=$((begun + 1)) ;;
    esac
}
state_of() { # TABLE
    { lentilpot show "$1" >shown 2>&1 && grep -q '^day ' shown; } || fail "$1 isn't whole"
    if cmp -s "$1" new; then state=new; elif cmp -s "$1" old; then state=old; else fail "$1 is neither the old nor the new one"; fi
    # nothing is said that a crash could take back
    [ ! -s "$1.listing" ] || [ $state = new ] || fail "replies were listed and $1 is the old one"
}

i=0
while [ $i -lt "$moments" ]; do
    i=$((i + 1))
    # every other moment from the start to past the end of a run, the others in its last part, where the table and the replies get their names
    delay=$(awk -v n=$i -v m="$moments" -v t=$took 'BEGIN { printf "%.6f", (n % 2 ? n * 1.3 * t / m : (0.8 + 0.3 * n / m) * t) / 1000000 }')
    rm -rf a b
    mkdir a b
    cp old a/t
    cp old b/t
    killed a/t
    state_of a/t
    first=$state
    # the second run wants the same name for its replies: it is killed at the same moment, or ends, being told of the first one's
    killed b/t
    state_of b/t
    second=$state
    if [ -s b/t.told ]; then
        others=$((others + 1))
        [ $second = old ] || fail "a run that was told of another's replies changed its table"
    fi
    [ $first = old ] || [ $second = old ] || fail "two runs gave their replies the same name"
    # whatever is left is told by the next run on each table, at most twice: its lock, and replies that had just begun
    for t in a/t b/t; do
        turns=0
        while [ -e "$t.lock" ] || { [ "$t" = b/t ] && [ -e a/r.run ]; }; do
            turns=$((turns + 1))
            [ $turns -le 4 ] || fail "mends don't end"
            cp "$t" t.before
            got=0
            if [ -e "$t.lock" ]; then
                locks=$((locks + 1))
                lentilpot order "$t" 941017 99910000011111111 "" 0000000000000001 >out 2>told || got=$?
            else
                receive "$t" "$root/samples/good.txt" a/r >out 2>told || got=$?
            fi
            { [ $got -eq 2 ] && [ ! -s out ] && cmp -s "$t" t.before; } || fail "a run went on over what was left"
            mended
        done
    done
    for left in a/t.new a/t.lock b/t.new b/t.lock a/r.new a/r.run; do [ ! -e $left ] || fail "$left is still left over"; done
    if [ $first = new ] || [ $second = new ]; then
        cmp -s a/r whole.replies || fail "the replies of the saved table are missing"
    else
        [ ! -e a/r ] || fail "there are replies and the tables are the old ones"
    fi
    # the same file once more: its stamps are accepted now only if they were not before
    for t in a/t b/t; do
        if [ $t = a/t ]; then state=$first; else state=$second; fi
        if [ $state = new ]; then news=$((news + 1)); else olds=$((olds + 1)); fi
        got=0
        timed receive $t "$root/samples/batches.txt" c/again 64 >again || got=$?
        rm c/again
        if [ $state = new ]; then
            { [ $got -eq 1 ] && [ "$(cat again)" = "E 1018" ]; } || fail "a stamp was accepted twice"
        else
            { [ $got -eq 0 ] && cmp -s again whole.listing; } || fail "the file isn't accepted after a run that changed nothing"
            cmp -s $t new || fail "the table differs from that of a run that was not cut off"
        fi
    done
done
{ [ $olds -gt 0 ] && [ $news -gt 0 ]; } || fail "every moment gave the same table: $olds old, $news new"
echo "kill: $((2 * moments)) kills on two tables in two folders: $olds with the old table, $news with the new one and its replies; no stamp accepted twice"
echo "kill: $locks locks left, $others runs told of another's replies; by the command told were mended $unchanged that had not changed the table, $standing that had saved it, $finished that had named the replies too, $begun that had just begun"
