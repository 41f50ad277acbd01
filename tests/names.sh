#!/bin/bash
# Files are told apart by what they are and not by their names: a table with a second name, replies that would replace something, replies under
# way of another run, and names that a shell would read otherwise. Each time one line is told, nothing is changed, and nothing waits.
set -eu
root=$(cd "$(dirname "$0")/.." && pwd -P)
program=${PROGRAM:-$root/target/program/lentilpot}
. "$root/samples/bank.sh"
work=$(cd "$(mktemp -d)" && pwd -P)
trap 'rm -rf "$work"' EXIT
cd "$work"
make_bank old >made
cp "$root/samples/good.txt" good
count=0
fail() { echo "tests/names: $*" >&2; cat "$work/out" "$work/told" >&2 2>/dev/null; exit 1; }
# everything here but what the test itself writes
state() { find . ! -name out ! -name told ! -name before ! -name after ! -name made | LC_ALL=C sort | while read -r f; do
    stat -c '%n %F %i %h %a' "$f"
    [ ! -f "$f" ] || cksum <"$f"
done; }

# Status 2, one line with the text, nothing listed, nothing changed, and no waiting.
told() { # TEXT WORDS..
    text=$1
    shift
    state >before
    got=0
    timeout 20 sh "$root/scripts/runbin" "$program" "$@" >out 2>told </dev/null || got=$?
    [ $got -eq 2 ] || fail "lentilpot $*: status $got, expected 2"
    { [ "$(wc -l <told)" -eq 1 ] && grep -qF -- "$text" told; } || fail "lentilpot $*: expected one line with '$text'"
    [ ! -s out ] || fail "lentilpot $*: something was listed"
    state >after
    cmp -s before after || { diff before after >&2; fail "lentilpot $*: something changed"; }
    count=$((count + 1))
}
files() { told "$1" receive "$2" 941017 091500 1 0000000000000001 "$3" "$4"; }

# ---- the table
cp old t
ln -s t link
ln t hard
mkfifo pipe
for name in link hard t; do
    case $name in link) text="link: a link" ;; *) text="a file with more than one name" ;; esac
    files "$text" $name good r
    told "$text" show $name
    told "$text" order $name 941017 99910000011111111 "" 0000000000000001
done
for name in link t empty0; do
    [ -e $name ] || : >$name
    told "there is a file already: expected the name of a new table" setup $name BANK "" SOFT 110 0123456789ABCDEF 0123456789ABCDEF
done
rm hard
files "not a regular file" pipe good r
files "not a regular file" /dev/null good r
told "there is a file already: expected the name of a new table" setup /dev/null BANK "" SOFT 110 0123456789ABCDEF 0123456789ABCDEF
files "FILE: expected another file than TABLE" t ./t r
ln -s t other
files "FILE: expected another file than TABLE" t other r

# ---- replies replace nothing
cp old second
ln -s nowhere dangling
: >empty
for name in t t.lock t.new ./t.new second good pipe /dev/null dangling empty link .; do
    files "there is a file already, and replies never replace one" t good $name
done
cp good r.new
files "r.new: there is a file already, which no run says is its own" t good r
rm r.new
# what has the names of our own files and isn't ours is never told to be removed
cp old r.run
files "r.run: there is a file already, which this program did not write" t good r
cp old x.run
files "x.run: there is a file already, which this program did not write" x.run good x
rm r.run x.run
cp old t.new
files "t.new: there is a file already, which no run says is its own" t good r
rm t.new
mkfifo t.lock
files "a lock that this program did not write" t good r
rm t.lock
mkdir r.run
files "r.run: there is a file already, which this program did not write" t good r
rmdir r.run
files "can't make the replies" t good none/r
{ [ ! -e t.lock ] && [ ! -e t.new ]; } || fail "a lock was left"

# ---- replies under way of another run
mkdir a b
cp old a/t
cp old b/t
mkfifo b/file
exec 9<>b/file
receive b/t b/file r >b/listing 2>b/told 9>&- &
run=$!
# the run has opened its file, and soon makes its replies
turns=0
while [ ! -e r.new ] && [ $turns -lt 200 ]; do turns=$((turns + 1)); sleep 0.05; done
files "a run on the table '$work/b/t', makes these replies: choose another name" a/t good r
files "the table is in use by process" b/t good other.replies
cat good >&9
exec 9>&-
wait $run || fail "the run that lived did not end well"
{ grep -q '^K' b/listing && [ ! -e r.new ] && [ ! -e r.run ] && [ ! -e b/t.lock ]; } || fail "the run that lived left something over"
[ -s r ] || fail "the replies of the run that lived are lost"

# the same, but it is killed: the mend is that of its own table, whichever table is asked for
rm r
cp old b/t
exec 9<>b/file
receive b/t b/file r >b/listing 2>b/told 9>&- &
run=$!
turns=0
while [ ! -e r.new ] && [ $turns -lt 200 ]; do turns=$((turns + 1)); sleep 0.05; done
kill -s KILL "$(head -n 1 b/t.lock | cut -c1-10 | sed 's/^0*//')"
wait $run 2>/dev/null || true
exec 9>&-
files "a run on the table '$work/b/t', runs no more and did not change the table" a/t good r
command=$(sed -n 's/.*To mend: //p' told)
(cd / && eval "$command") || fail "the mend failed"
{ [ ! -e r.new ] && [ ! -e r.run ] && [ ! -e b/t.lock ] && [ ! -e b/t.new ]; } || fail "the mend left something over"
cmp -s b/t old || fail "the other table changed"
receive a/t good r >out 2>told || fail "the name of the replies can't be used after the mend"
rm r

# ---- what a person does while a run is under way: the run sees that a file isn't its own any more, and changes nothing
meddled() { # WHAT TEXT
    rm -rf m
    mkdir m
    cp old m/t
    mkfifo m/file
    exec 9<>m/file
    (umask 000 && receive m/t m/file m/r >listing 2>said) 9>&- &
    run=$!
    turns=0
    while [ ! -e m/r.new ] && [ $turns -lt 200 ]; do turns=$((turns + 1)); sleep 0.05; done
    [ "$(stat -c %a m/t.new)" = 600 ] || fail "the new table, which is to hold keys, has mode $(stat -c %a m/t.new)"
    eval "$1"
    cat good >&9
    exec 9>&-
    got=0
    wait $run || got=$?
    cp said told
    cp listing out
    { [ $got -eq 2 ] && [ ! -s listing ]; } || fail "$1: status $got, expected 2 and no listing"
    { [ "$(wc -l <said)" -eq 1 ] && grep -qF -- "$2" said; } || fail "$1: expected one line with '$2'"
    [ ! -e m/r ] || [ "$(cat m/r)" = other ] || fail "$1: there are replies"
    count=$((count + 1))
}
meddled 'rm m/t.lock' "nothing was changed: the lock was removed, or its folder moved, while the run was under way"
{ cmp -s m/t old && [ ! -e m/t.new ] && [ ! -e m/r.new ] && [ ! -e m/r.run ]; } || fail "something changed or is left"
meddled 'echo other >m/t.lock' "nothing was changed: the lock was removed, or its folder moved, while the run was under way"
{ cmp -s m/t old && [ "$(cat m/t.lock)" = other ]; } || fail "another's lock was removed"
meddled 'rm m/t.new; echo other >m/t.new' "nothing was changed: another file took the table's name, or that of the new one"
{ cmp -s m/t old && [ "$(cat m/t.new)" = other ]; } || fail "another's file took the table's name"
meddled 'mv m/t m/t2; cp old m/t' "nothing was changed: another file took the table's name, or that of the new one"
{ cmp -s m/t old && cmp -s m/t2 old; } || fail "a table that was put in place was replaced"
meddled 'rm m/r.new; echo other >m/r.new' "nothing was changed: another file took the name of the replies"
{ cmp -s m/t old && [ "$(cat m/r.new)" = other ]; } || fail "another's file was taken for the replies"
# a folder that is moved away: told in one line, and nothing is left in it
meddled 'rm -rf away; mv m away; mkdir m' "nothing was changed: "
{ cmp -s away/t old && [ "$(cd away && find . -type f) $(find away | wc -l)" = "./t 3" ]; } || fail "something is left in the folder that was moved"
meddled 'echo other >m/r' "holds the replies, which could not be given their name; the table was saved, and another file has their name by now"
[ "$(cat m/r)" = other ] || fail "the replies replaced a file"
command=$(sed -n 's/.*To mend: //p' told)
(cd / && eval "$command") || fail "the mend failed"
{ [ ! -e m/r.new ] && [ ! -e m/r.run ] && [ -n "$(find m -name 'r.????????????????')" ]; } || fail "the mend lost the replies"

# ---- names that a shell would read otherwise; a mend is right from any folder
for name in "it's" "-n" "-h" 'a b' "\$(touch x)" '"; touch x; "' '*' '--' "back\\slash" 'ä'; do
    mkdir -p "./odd/$name"
    (
        cd "./odd/$name"
        cp "$work/old" "./$name"
        cp "$work/good" "./$name.file"
        printf '%010d AAAAAAAAAAAAAAAA\n%s\n' "$(sh -c 'echo $$')" "$work/odd/$name/$name.r" >"./$name.lock"
        : >"./$name.new"
        printf '%010d AAAAAAAAAAAAAAAA\n%s\n' "$(sh -c 'echo $$')" "$work/odd/$name/$name" >"./$name.r.run"
        head -c 300 "$work/good" >"./$name.r.new"
        cp "./$name.lock" lock
        sed "1s/.*/$(head -1 "./$name.lock")/" "./$name.r.run" >run
        cp run "./$name.r.run"
        rm run lock
        got=0
        lentilpot receive -- "$name" 941017 091500 1 0000000000000001 "$name.file" "$name.r" >"$work/out" 2>"$work/told" || got=$?
        { [ $got -eq 2 ] && [ "$(wc -l <"$work/told")" -eq 1 ]; } || fail "'$name': expected status 2 and one line"
        command=$(sed -n 's/.*did not change the table. To mend: //p' "$work/told")
        [ -n "$command" ] || fail "'$name': no mend is told"
        (cd / && eval "$command") || fail "'$name': the mend failed"
        [ "$(find . -mindepth 1 | wc -l)" -eq 2 ] || { ls -A >&2; fail "'$name': the mend left or removed something"; }
        lentilpot receive -- "$name" 941017 091500 1 0000000000000001 "$name.file" "$name.r" >"$work/out" 2>"$work/told" || fail "'$name': the file isn't accepted"
    )
    count=$((count + 1))
done
{ [ -z "$(find . -name x)" ] && [ -z "$(find / -maxdepth 1 -name x -newer made 2>/dev/null)" ]; } || fail "a name was run as a command"
# ---- names so long that those beside them would not fit a folder
long=$(printf '%0255d' 0)
files "REPLIES: expected the name of a file, of at most 238 bytes past its folder" t good "${long:0:239}"
files "REPLIES: expected the name of a file, of at most 238 bytes past its folder" t good "./$long"
files "TABLE: expected the name of a file, of at most 244 bytes past its folder" "${long:0:245}" good r
told "TABLE: expected the name of a file, of at most 244 bytes past its folder" setup "${long:0:245}" BANK "" SOFT 110 0123456789ABCDEF 0123456789ABCDEF
told "TABLE: expected the name of a file, of at most 244 bytes past its folder" order "$long" 941017 99910000011111111 "" 0000000000000001
# the longest: another file takes the name meanwhile, and the mend can be typed
mkdir longest
cp old "longest/${long:0:244}"
mkfifo longest/file
exec 9<>longest/file
receive "longest/${long:0:244}" longest/file "longest/${long:0:238}" >out 2>told 9>&- &
run=$!
turns=0
while [ ! -e "longest/${long:0:238}.new" ] && [ $turns -lt 200 ]; do turns=$((turns + 1)); sleep 0.05; done
echo other >"longest/${long:0:238}"
cat good >&9
exec 9>&-
got=0
wait $run || got=$?
{ [ $got -eq 2 ] && grep -qF "and another file has their name by now" told; } || fail "the longest names: status $got"
command=$(sed -n 's/.*To mend: //p' told)
(cd / && eval "$command") || fail "the mend of the longest name failed"
{ [ "$(find longest -type f | wc -l)" -eq 3 ] && [ -n "$(find longest -name '*.????????????????')" ]; } || fail "the mend of the longest name lost the replies"
rm -r longest
count=$((count + 1))

newline='a
b'
told "TABLE: expected the name of a file, without control characters" show "$newline"
files "REPLIES: expected the name of a file, without control characters" t good "$newline"
files "FILE: expected the name of a file, without control characters" t "$newline" r
mkdir "$newline"
(cd "$newline" && lentilpot show ../t >../out 2>../told && exit 1 || [ $? -eq 2 ]) || fail "a folder with an LF in its name was taken"
grep -qF "without control characters" told || fail "a folder with an LF in its name was not told"
rmdir "$newline"

# ---- names that aren't UTF-8, which can't be asked for here: a word, a folder, and what other programs may have written into a lock
other=$(printf 'caf\351')
told "TABLE: expected the name of a file, in UTF-8" show "$other"
files "REPLIES: expected the name of a file, in UTF-8" t good "$other"
files "FILE: expected the name of a file, in UTF-8" t "$other" r
told "V: expected the name of a file, in UTF-8" setup n BANK "" SOFT 110 0123456789ABCDEF "@$other"
mkdir "$other"
(cd "$other" && lentilpot show t >../out 2>../told && exit 1 || [ $? -eq 2 ]) || fail "a name below a folder that isn't UTF-8 was taken"
grep -qF "a name that begins with '/'" told || fail "a folder that isn't UTF-8 was not told"
(cd "$other" && lentilpot show "$work/t" >../out 2>../told) || fail "a whole name was not taken in a folder that isn't UTF-8"
rmdir "$other"
over='4294967295 AAAAAAAAAAAAAAAA'
printf '%s\n%s\n' "$over" "$work/$other" >t.lock
files "names its replies by a name that isn't UTF-8: nothing can be told of it" t good r
rm t.lock
printf '%s\n%s\n' "$over" "$work/$other" >r.run
files "', runs no more and its table has a name that isn't UTF-8: nothing can be told of it; choose another name for REPLIES" t good r
rm r.run
# of a run that lives, here this shell, all is told
printf '%010d AAAAAAAAAAAAAAAA\n%s\n' $$ "$work/$other" >t.lock
files "the table is in use by process $$" t good r
rm t.lock
printf '%010d AAAAAAAAAAAAAAAA\n%s\n' $$ "$work/$other" >r.run
files "makes these replies: choose another name for REPLIES, or try again when it has ended" t good r
rm r.run
echo "names: $count names and kinds of files, each told in one line, nothing changed and nothing waited for"
