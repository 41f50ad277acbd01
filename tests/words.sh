#!/bin/bash
# Bad words and bad files: one line on standard error that names the word or file, nothing on standard output, the table as it was and nothing left over.
set -eu
root=$(cd "$(dirname "$0")/.." && pwd -P)
program=${PROGRAM:-$root/target/program/lentilpot}
. "$root/samples/bank.sh"
work=$(mktemp -d)
trap 'rm -rf "$work"' EXIT
cd "$work"
make_bank t >made
cp t before
cp "$root/samples/good.txt" good
mkdir folder
head -c 100 t >short
cat t made >long
printf '941024\n94102\n' >badlines
ls -A >names
count=0
K=0123456789ABCDEF P1=F18C57209492FEB3 P2=C71A7502021A022F

# The line must hold the text; the table and the folder must be as they were.
bad() { # TEXT WORDS..
    text=$1
    shift
    got=0
    lentilpot "$@" >out 2>err </dev/null || got=$?
    lines=$(wc -l <err)
    if [ "$got" -ne 2 ] || [ "$lines" -ne 1 ] || ! grep -qF -- "$text" err || [ -s out ]; then
        echo "tests/words: lentilpot $*: expected status 2, one line with '$text' on standard error and nothing on standard output, got status $got and:" >&2
        cat err out >&2
        exit 1
    fi
    rm -f out err
    cmp -s t before || { echo "tests/words: lentilpot $*: the table changed" >&2; exit 1; }
    ls -A >/tmp/names.$$
    cmp -s names /tmp/names.$$ || { echo "tests/words: lentilpot $*: left something over:" >&2; diff names /tmp/names.$$ >&2; rm -f /tmp/names.$$; exit 1; }
    rm -f /tmp/names.$$
    count=$((count + 1))
}
ID=99910000011111111 WIDE=123456789012345678
bad "COMMAND: expected"
bad "COMMAND: expected" shw t
bad "COMMAND: expected" ""
# words missing or over
bad "too few words: expected setup TABLE" setup t
bad "too many words: expected setup TABLE" setup n B "" S 110 $K $K h more
bad "too few words: expected add TABLE" add t 941017 $ID "" $P1 $P2 028E4C 0 1 yes
bad "too many words: expected add TABLE" add t 941017 $ID "" $P1 $P2 028E4C 0 1 yes no 30 more
bad "too few words: expected key TABLE" key t 941017 $ID "" $P1 $P2 028E4C
bad "too many words: expected key TABLE" key t 941017 $ID "" $P1 $P2 028E4C 1 more
bad "too few words: expected order TABLE" order t 941017 $ID ""
bad "too many words: expected order TABLE" order t 941017 $ID "" $K more
bad "too few words: expected receive TABLE" receive t 941017 091500 1 $K good
bad "too many words: expected receive TABLE" receive t 941017 091500 1 $K good r 80 more
bad "too few words: expected show TABLE" show
bad "too many words: expected show TABLE" show t more and more
# words of the wrong form
bad "TABLE: expected" show ""
bad "BANK: expected" setup n $WIDE "" S 110 $K $K
bad "QUALIFIER: expected" setup n B 123456789 S 110 $K $K
bad "SOFTWARE: expected" setup n B "" 12345678901234567 110 $K $K
bad "FLOOR: expected" setup n B "" S 11O $K $K
bad "K: expected 16 hex" setup n B "" S 110 0123456789abcdef $K
bad "K: expected 16 hex" setup n B "" S 110 123456789ABCDEF $K
bad "V: expected 16 hex" setup n B "" S 110 $K 0123456789ABCDEG
bad "DATE: expected" add t 19941017 $ID "" $P1 $P2 028E4C 0 1 yes no
bad "DATE: expected" add t 94101x $ID "" $P1 $P2 028E4C 0 1 yes no
bad "IDENTITY: expected" add t 941017 $WIDE "" $P1 $P2 028E4C 0 1 yes no
bad "PART1: expected" add t 941017 $ID "" F18C $P2 028E4C 0 1 yes no
bad "PART2: expected" add t 941017 $ID "" $P1 "" 028E4C 0 1 yes no
bad "CHECK: expected" add t 941017 $ID "" $P1 $P2 028E4 0 1 yes no
bad "GENERATION: expected" add t 941017 $ID "" $P1 $P2 028E4C 10 1 yes no
for types in "" 0 17 1,,3 "1," ,1 1-3 01 a -1; do bad "TYPES: expected" add t 941017 $ID "" $P1 $P2 028E4C 0 "$types" yes no; done
bad "AGREED: expected" add t 941017 $ID "" $P1 $P2 028E4C 0 1 Yes no
bad "LEAVE: expected" add t 941017 $ID "" $P1 $P2 028E4C 0 1 yes n
bad "LENGTH: expected" add t 941017 $ID "" $P1 $P2 028E4C 0 1 yes no -1
bad "CLOCK: expected" order t 941017 $ID "" 0
bad "TIME: expected" receive t 941017 0915 1 $K good r
bad "TYPE: expected" receive t 941017 091500 x $K good r
bad "CLOCK: expected" receive t 941017 091500 1 1 good r
for size in "" 0 65537 1x -1; do bad "READ: expected" receive t 941017 091500 1 $K good r "$size"; done
bad "FILE: expected" receive t 941017 091500 1 $K "" r
bad "REPLIES: expected" receive t 941017 091500 1 $K good ""
# files
bad "missing: No such file" show missing
bad "folder: not a regular file" show folder
bad "short: not the size" show short
bad "long: not the size" show long
bad "missing: No such file" order missing 941017 $ID "" $K
bad "folder: not a regular file" add folder 941017 $ID "" $P1 $P2 028E4C 0 1 yes no
bad "short: not the size" key short 941017 $ID "" $P1 $P2 028E4C 1
bad "long: not the size" receive long 941017 091500 1 $K good r
bad "none/t.lock: No such file" order none/t 941017 $ID "" $K
bad "t: there is a file already" setup t B "" S 110 $K $K
bad "folder: there is a file already" setup folder B "" S 110 $K $K
bad "missing: No such file" setup n B "" S 110 $K $K missing
bad "folder: Is a directory" setup n B "" S 110 $K $K folder
bad "badlines: line 2 isn't a date" setup n B "" S 110 $K $K badlines
bad "long: too long for holidays" setup n B "" S 110 $K $K long
bad "missing: No such file" receive t 941017 091500 1 $K missing r
bad "folder: Is a directory" receive t 941017 091500 1 $K folder r
bad "none/r.run: No such file" receive t 941017 091500 1 $K good none/r
if [ "$(id -u)" -ne 0 ]; then
    chmod 000 short
    bad "short: Permission denied" show short
    chmod 500 folder
    bad "folder/r.run: Permission denied" receive t 941017 091500 1 $K good folder/r
fi
# with a standard stream closed a file of ours could get its number
for closed in '<&-' '>&-'; do
    eval "lentilpot order t 941017 $ID '' $K $closed 2>err" || true
    { grep -qF "to be open" err && cmp -s t before; } || { echo "tests/words: a closed standard stream was not refused" >&2; exit 1; }
done
# a second run finds the lock; here its owner is this shell, which lives
printf '%010d AAAAAAAAAAAAAAAA\n' $$ >t.lock
lentilpot order t 941017 $ID "" $K >out 2>err || true
{ grep -qF "in use by process $$" err && [ ! -s out ] && cmp -s t before; } || { echo "tests/words: a table in use was not refused" >&2; cat err out >&2; exit 1; }
rm -f t.lock
# a refused call leaves the table's file as it was
lentilpot order t 941016 $ID X $K >out || true
{ grep -qF "refused 7: " out && cmp -s t before; } || { echo "tests/words: refused 7 was expected, and the table as it was" >&2; cat out >&2; exit 1; }
# the program's own name is no word of the command, however long (where the program runs by itself)
if [ "$(uname -m)" = x86_64 ]; then
    long=$(head -c 5000 /dev/zero | tr '\0' a)
    (exec -a "$long" "$program" show t) >out 2>err || { echo "tests/words: a long name of the program ended it" >&2; cat err >&2; exit 1; }
fi
echo "words: $count bad words and files, each told in one line and nothing changed"
