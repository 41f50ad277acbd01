#!/bin/bash
# What a run of `bureau` that was cut off can leave, each state made by hand: the next run tells what is the case and changes nothing, and the command that it tells mends
# it, typed in another folder. A saved desk has its file, and a file that is there is known to the desk.
set -eu
root=$(cd "$(dirname "$0")/.." && pwd -P)
bureau_program=${BUREAU:-$root/target/program/bureau}
. "$root/samples/desk.sh"
work=$(cd "$(mktemp -d)" && pwd -P)
trap 'rm -rf "$work"' EXIT
cd "$work"
states=0
make_desk old >made
cp old new
bureau make new 941017 080000 0000000000000100 SKH whole "$root/samples/wages.txt" >made
dead=$(printf '%010d' "$(sh -c 'echo $$')")
fail() { echo "tests/bureau_left: $state: $*" >&2; cat told >&2; ls -la >&2; exit 1; }
lock() { printf "$dead AAAAAAAAAAAAAAAA\\n%s" "$1" >d.lock; }
under() { printf "$dead $1\\n%s\\n" "$work/d" >f.run; }

# The next run must say the text and change nothing; then what it tells to type is typed.
tell() { # TEXT DESK
    got=0
    bureau make d 941018 080000 0000000000000200 SKH f "$root/samples/wages.txt" >out 2>told || got=$?
    [ $got -eq 2 ] || fail "status $got, expected 2"
    { [ "$(wc -l <told)" -eq 1 ] && grep -qF -- "$1" told && grep -q '^bureau: ' told; } || fail "expected one line with '$1'"
    ! grep -qE 'table|replies|lentilpot' told || fail "words of the bank's program"
    [ ! -s out ] || fail "something was listed"
    cmp -s d "$2" || fail "the desk changed"
    command=$(sed -n 's/.*To mend: //p' told)
    [ -n "$command" ] || fail "no mend is told"
    (cd / && eval "$command") || fail "the mend failed"
    { [ ! -e d.lock ] && [ ! -e d.new ] && [ ! -e f.new ] && [ ! -e f.run ]; } || fail "something is still left over"
    cmp -s d "$2" || fail "the mend changed the desk"
    states=$((states + 1))
}

state="an open, a key or a check that was cut off"
cp old d
lock ""
tell "may have changed the desk" old
state="cut off before the file was begun"
: >d.new
lock "$work/f
"
tell "did not change the desk" old
state="cut off before the desk was saved"
: >d.new
head -c 300 whole >f.new
under AAAAAAAAAAAAAAAA
lock "$work/f
"
tell "did not change the desk" old
[ ! -e f ] || fail "a file whose stamps the desk does not know"
state="cut off between the desk and the file's name"
cp new d
cp whole f.new
under AAAAAAAAAAAAAAAA
lock "$work/f
"
tell "saved the desk; its messages stand" new
cmp -s f whole || fail "the file is lost"
state="the same, cut off just after the name was taken"
mv f f.new
: >f
under AAAAAAAAAAAAAAAA
lock "$work/f
"
tell "saved the desk; its messages stand" new
cmp -s f whole || fail "the file is lost"
state="the same, and another file has the name by now"
mv f f.new
echo other >f
under AAAAAAAAAAAAAAAA
lock "$work/f
"
tell "another file has their name by now" new
{ cmp -s f.AAAAAAAAAAAAAAAA whole && [ "$(cat f)" = other ]; } || fail "the file or the other one is lost"
state="cut off after the file's name"
mv f.AAAAAAAAAAAAAAAA f
under AAAAAAAAAAAAAAAA
lock "$work/f
"
tell "saved the desk; its messages are in '$work/f'" new
state="cut off just before the lock was removed"
lock "$work/f
"
tell "saved the desk; its messages are in '$work/f'" new
cmp -s f whole || fail "the file is lost"
state="a file under way whose desk has no lock any more"
mv f f.new
under BBBBBBBBBBBBBBBB
tell "its lock was removed, so whether that desk was saved can't be told" new
cmp -s f.BBBBBBBBBBBBBBBB whole || fail "the file is lost"
state="a new desk without a lock"
cp old d
: >d.new
tell "d.new: left by a run that did not change the desk, and whose lock was removed" old
state="an empty lock"
: >d.lock
tell "if no bureau runs on it, that run did nothing. To mend: rm '$work/d.lock'" old
state="another program's lock"
echo 1 >d.lock
bureau make d 941018 080000 0000000000000200 SKH f "$root/samples/wages.txt" >out 2>told && fail "a lock was overrun"
{ grep -qF "a lock that this program did not write" told && [ ! -s out ] && cmp -s d old; } || fail "expected to be told of the lock"
rm -f d.lock
state="after all of it"
bureau make d 941018 080000 0000000000000200 SKH f "$root/samples/wages.txt" >out 2>told || fail "the desk is not free again"
echo "bureau_left: $states states that a cut off run leaves were told and mended, and no file or desk was lost"
