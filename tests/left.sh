#!/bin/bash
# What a run that was cut off can leave, each state made by hand: the next run tells what is the case and changes nothing, and the command that it tells mends it,
# typed in another folder.
set -eu
root=$(cd "$(dirname "$0")/.." && pwd -P)
program=${PROGRAM:-$root/target/program/lentilpot}
. "$root/samples/bank.sh"
work=$(cd "$(mktemp -d)" && pwd -P)
trap 'rm -rf "$work"' EXIT
cd "$work"
make_bank old >made
cp old new
receive new "$root/samples/good.txt" whole >listing
dead=$(printf '%010d' "$(sh -c 'echo $$')")
file=$root/samples/good.txt
fail() { echo "tests/left: $state: $*" >&2; cat told >&2; ls -la >&2; exit 1; }
lock() { printf "$dead AAAAAAAAAAAAAAAA\\n%s" "$1" >t.lock; }
under() { printf "$dead $1\\n%s\\n" "$work/t" >r.run; }

# The next run must say the text and change nothing; then what it tells to type is typed.
tell() { # TEXT TABLE
    got=0
    receive t "$file" r >out 2>told || got=$?
    [ $got -eq 2 ] || fail "status $got, expected 2"
    { [ "$(wc -l <told)" -eq 1 ] && grep -qF -- "$1" told; } || fail "expected one line with '$1'"
    [ ! -s out ] || fail "something was listed"
    cmp -s t "$2" || fail "the table changed"
    command=$(sed -n 's/.*To mend: //p' told)
    [ -n "$command" ] || fail "no mend is told"
    (cd / && eval "$command") || fail "the mend failed"
}
clean() { { [ ! -e t.lock ] && [ ! -e t.new ] && [ ! -e r.new ] && [ ! -e r.run ]; } || fail "something is still left over"; }

state="a lock alone"
cp old t
lock ""
tell "may have changed the table" old
clean
state="cut off before the replies were begun"
: >t.new
lock "$work/r
"
tell "did not change the table" old
clean
state="cut off before the table was saved"
: >t.new
head -c 300 whole >r.new
under AAAAAAAAAAAAAAAA
lock "$work/r
"
tell "did not change the table" old
clean
[ ! -e r ] || fail "replies of a table that was not saved"
state="cut off before the table was saved, while another run makes replies of that name"
: >t.new
head -c 300 whole >r.new
under BBBBBBBBBBBBBBBB
cp r.run r.run.before
lock "$work/r
"
tell "did not change the table" old
{ [ ! -e t.lock ] && [ ! -e t.new ]; } || fail "something is still left over"
{ [ -e r.new ] && cmp -s r.run r.run.before; } || fail "the mend broke the other run's replies"
state="replies under way whose table has no lock any more"
tell "its lock was removed, so whether that table was saved can't be told" old
clean
cmp -s r.BBBBBBBBBBBBBBBB <(head -c 300 whole) || fail "the replies are lost"
rm -f r.run.before r.BBBBBBBBBBBBBBBB
state="a name in the lock that was cut off"
: >t.new
lock "$work/"
tell "did not change the table" old
clean
state="cut off between the table and the replies' name"
cp new t
cp whole r.new
under AAAAAAAAAAAAAAAA
lock "$work/r
"
tell "saved the table; its replies stand" new
clean
cmp -s r whole || fail "the replies are lost"
state="the same, cut off just after the name was taken"
mv r r.new
: >r
under AAAAAAAAAAAAAAAA
lock "$work/r
"
tell "saved the table; its replies stand" new
clean
cmp -s r whole || fail "the replies are lost"
state="the same, and another file has the name by now"
mv r r.new
echo other >r
under AAAAAAAAAAAAAAAA
lock "$work/r
"
tell "another file has their name by now" new
clean
{ cmp -s r.AAAAAAAAAAAAAAAA whole && [ "$(cat r)" = other ]; } || fail "the replies or the other file are lost"
state="the same two, found by a run on another table"
rm r r.AAAAAAAAAAAAAAAA
cp whole r.new
under AAAAAAAAAAAAAAAA
lock "$work/r
"
cp old second
got=0
receive second "$file" r >out 2>told || got=$?
{ [ $got -eq 2 ] && grep -qF "a run on the table '$work/t', runs no more and saved the table; its replies stand" told; } || fail "expected to be told whose they are"
cmp -s second old || fail "the other table changed"
command=$(sed -n 's/.*To mend: //p' told)
(cd / && eval "$command") || fail "the mend failed"
clean
cmp -s r whole || fail "the replies are lost"
state="cut off after the replies' name"
under AAAAAAAAAAAAAAAA
lock "$work/r
"
tell "saved the table; its replies are in '$work/r'" new
clean
cmp -s r whole || fail "the replies are lost"
state="cut off just before the lock was removed"
lock "$work/r
"
tell "saved the table; its replies are in '$work/r'" new
clean
cmp -s r whole || fail "the replies are lost"
state="the same, and someone took the replies away"
mv r elsewhere
lock "$work/r
"
tell "saved the table; its replies are no longer in '$work/r'" new
clean
mv elsewhere r
state="the mend of a table that was not changed, cut off at its last step"
mv r elsewhere
cp old t
: >t.new
head -c 300 whole >r.new
under AAAAAAAAAAAAAAAA
lock "$work/r
"
receive t "$file" r >out 2>told || true
first=$(sed -n 's/.*To mend: //p' told | sed 's/ && rm [^&]*$//')
(cd / && eval "$first") || fail "the mend failed"
tell "left by a run that did not change the table" old
clean
cp new t
mv elsewhere r
state="lock gone, table saved, listing cut off"
receive new "$file" r >out 2>told && fail "the replies were replaced"
{ cmp -s r whole && grep -qF "replies never replace one" told; } || fail "the replies are lost"
lentilpot explain r >out 2>told || fail "the replies can't be shown"
grep -q "^accepted 3, refused 0" out || fail "the replies are shown otherwise"
state="a new table without a lock"
rm r
cp old t
: >t.new
tell "t.new: left by a run that did not change the table, and whose lock was removed" old
clean
state="an empty lock"
: >t.lock
tell "if no lentilpot runs on it, that run did nothing. To mend: rm '$work/t.lock'" old
clean
state="a lock that can't be read"
if [ "$(id -u)" -eq 0 ] && command -v setpriv >/dev/null 2>&1; then
    lock ""
    chmod 600 t.lock
    chmod 755 .
    setpriv --reuid=65534 --regid=65534 --clear-groups sh "$root/scripts/runbin" "$program" order t 941017 99910000011111111 "" 0000000000000001 >out 2>told && fail "a lock was overrun"
    grep -qF "can't read the lock" told || grep -qF "Permission denied" told || fail "expected to be told that the lock can't be read"
    rm t.lock
fi
state="an empty file of who makes the replies"
: >r.run
tell "if no lentilpot runs, that run did nothing. To mend: rm '$work/r.run'" old
clean
state="another program's lock"
echo 1 >t.lock
receive t "$file" r >out 2>told && fail "a lock was overrun"
{ grep -qF "a lock that this program did not write" told && [ ! -s out ] && cmp -s t old; } || fail "expected to be told of the lock"
rm -f t.lock
# Ctrl-C and TERM leave what a kill leaves. A shell has its background jobs ignore INT, and so may whoever started this one.
env --default-signal=INT true 2>/dev/null && heeding="env --default-signal=INT" || heeding=
for signal in INT TERM; do
    state="ended by $signal"
    [ $signal = TERM ] || [ -n "$heeding" ] || continue
    rm -f pipe
    mkfifo pipe
    exec 9<>pipe
    $heeding sh "$root/scripts/runbin" "$program" receive t 941017 091500 1 0000000000000001 pipe r >out 2>told 9>&- &
    run=$!
    turns=0
    while [ ! -e r.new ] && [ $turns -lt 200 ]; do turns=$((turns + 1)); sleep 0.05; done
    kill -s $signal $run
    turns=0
    while kill -0 $run 2>/dev/null && [ $turns -lt 200 ]; do turns=$((turns + 1)); sleep 0.05; done
    kill -s KILL $run 2>/dev/null && fail "the run goes on"
    wait $run 2>/dev/null || true
    exec 9>&-
    { [ -e t.lock ] && [ -e t.new ] && [ -e r.new ]; } || fail "expected what a kill leaves"
    tell "did not change the table" old
    clean
done
# Giving up takes back what was made, each step on the disk before the next: the replies may be on another disk than the table, and a lock that names them
# without a new table says that the table was saved.
state="given up"
if [ "$(uname -m)" = x86_64 ] && command -v strace >/dev/null 2>&1 && strace -o /dev/null true 2>/dev/null; then
    mkdir bank out2
    cp old bank/t
    # a folder can be opened and not read
    strace -y -o trace -e 'trace=/^(open|openat|fsync|ftruncate|unlink|unlinkat|rename|renameat|renameat2)$' "$program" receive bank/t 941017 091500 1 \
        0000000000000001 . out2/r >out 2>told && fail "a folder was received"
    grep -qF "Is a directory" told || fail "expected to be told that the file can't be read"
    sed -n "s|$work/||g
        s/^unlink.*\"\(.*\)\".*= 0/remove \1/p
        s/^ftruncate([0-9]*<\([^>]*\)>.*/cut \1/p
        s/^fsync([0-9]*<\([^>]*\)>.*/flush \1/p" trace | sed -n '/^remove out2/,$p' >steps
    cat >expected <<'END'
remove out2/r.new
flush out2
remove out2/r.run
flush out2
cut bank/t.lock
flush bank/t.lock
remove bank/t.new
remove bank/t.lock
END
    diff expected steps >&2 || fail "the steps of giving up (>) aren't the right ones (<)"
    { cmp -s bank/t old && [ "$(find bank out2 | LC_ALL=C sort | tr '\n' ' ')" = "bank bank/t out2 " ]; } || fail "something is left"
fi
state="mended"
receive t "$file" r >out 2>told || fail "the file isn't accepted after the mends"
{ cmp -s out listing && cmp -s t new; } || fail "the file isn't accepted after the mends"
echo "left: what a run that was cut off can leave is told in one line and mended by what is told, from any folder"
