#!/bin/bash
# What a person or a script that calls the program goes by: the exit status, what is said where an answer can't be written, days, standard input, keys kept out of the
# command line, explanations.
set -eu
root=$(cd "$(dirname "$0")/.." && pwd -P)
program=${PROGRAM:-$root/target/program/lentilpot}
. "$root/samples/bank.sh"
work=$(cd "$(mktemp -d)" && pwd -P)
trap 'rm -rf "$work"' EXIT
cd "$work"
count=0
fail() { echo "tests/status: $*" >&2; for f in out told; do sed "s/^/  $f: /" $f >&2; done; exit 1; }
# The status, and a text on standard output and on standard error each ('' for nothing there).
ends() { # STATUS OUT TOLD WORDS..
    want=$1 out=$2 told=$3
    shift 3
    got=0
    lentilpot "$@" >out 2>told || got=$?
    [ $got -eq "$want" ] || fail "lentilpot $*: status $got, expected $want"
    if [ -n "$out" ]; then grep -qF -- "$out" out || fail "lentilpot $*: expected '$out' on standard output"; else [ ! -s out ] || fail "lentilpot $*: expected nothing on standard output"; fi
    if [ -n "$told" ]; then
        { grep -qF -- "$told" told && [ "$(wc -l <told)" -eq 1 ]; } || fail "lentilpot $*: expected one line with '$told' on standard error"
    else
        [ ! -s told ] || fail "lentilpot $*: expected nothing on standard error"
    fi
    count=$((count + 1))
}
K=0123456789ABCDEF P1=F18C57209492FEB3 P2=C71A7502021A022F C=0000000000000001 ID=99910000011111111
good=$root/samples/good.txt

# ---- the keeping calls
ends 0 ok '' setup t 003701234567 "" "FRONT 4" 110 $K 0000000000000007 "$root/samples/holidays.txt"
ends 0 ok '' add t 941014 $ID "" $P1 $P2 028E4C 0 1,3,16 yes yes
ends 1 'refused 6: ' '' add t 941014 $ID "" $P1 $P2 028E4C 0 1,3,16 yes yes
ends 1 'refused 10: ' '' key t 941014 $ID "" $P1 $P2 028E4C 5
ends 2 '' 'GENERATION: expected' key t 941014 $ID "" $P1 $P2 028E4C x
ends 2 '' "there is a file already" setup t 003701234567 "" "FRONT 4" 110 $K 0000000000000007
ends 2 '' "COMMAND: expected" shw t
ends 0 'lentilpot ' '' --version
ends 2 '' "COMMAND: expected" --version foo
ends 2 '' "COMMAND: expected" foo --version
ends 2 '' "COMMAND: expected" --version --later
cp t base

# ---- a file past the size, one byte more than may be, without any of them on the disk; it takes a while, so beside the others
huge=
if truncate -s 4294967296 huge 2>/dev/null; then
    cp base large
    { got=0; lentilpot receive large 941017 091500 1 $C huge huge.r >huge.out 2>huge.told || got=$?; echo $got >huge.status; } &
    huge=$!
fi

# ---- receive: every reply K, some reply E, refused, trouble
cp base t
ends 0 'K 1001' '' receive t 941017 091500 1 $C "$good" r1
[ "$(cat out)" = "$(printf 'K 1001\nK 1001\nK 1001')" ] || fail "another listing"
ends 1 'E 1018' '' receive t 941017 091500 1 $C "$good" r2
cp base damaged
ends 1 'E 1019' '' receive damaged 941017 091500 1 $C "$root/samples/damaged.txt" r3
ends 1 'refused 11: ' '' receive t 941017 091500 17 $C "$good" r4
ends 2 '' 'No such file' receive t 941017 091500 1 $C missing r4
ends 2 '' 'replies never replace one' receive t 941017 091500 1 $C "$good" r1
[ ! -e r4 ] || fail "a refused opening left replies"

# ---- an empty file is served, and said so
cp t before
: >empty
ends 0 '' "empty: no message stood in it, so there is no reply; the table's day is now 941018" receive t 941018 091500 1 $C empty r5
{ [ -f r5 ] && [ ! -s r5 ]; } || fail "the replies of an empty file"

# ---- what can't be written is told, and is trouble
if [ -c /dev/full ]; then
    full() { # TOLD WORDS..
        told=$1
        shift
        got=0
        lentilpot "$@" >/dev/full 2>told || got=$?
        : >out
        { [ $got -eq 2 ] && grep -qF -- "$told" told && grep -qF "No space left" told; } || fail "lentilpot $* >/dev/full: status $got, expected 2 and '$told'"
        count=$((count + 1))
    }
    full "the table can't be shown" show t
    full "the table can't be shown" show t $ID ""
    full "the help can't be shown" help
    full "the help can't be shown" receive --help
    full "the help can't be shown" --version
    full "'ok' can't be written" order t 941018 $ID "" $C
    full "the answer can't be written" order t 941018 NOBODY "" $C
    full "the answer can't be written" order t 941001 $ID "" $C
    full "the table was saved and the replies are in this file" receive t 941018 091500 1 $C "$good" r6
    { [ -s r6 ] && [ ! -e t.lock ] && [ ! -e r6.run ]; } || fail "the replies are lost where they can't be listed"
    full "the explanations can't be listed" receive t 941018 091500 1 $C "$good" r7 --explain
    full "the replies can't be shown" explain r1
fi

# a reader that left: told, and nothing is left locked
for words in "show t" "order t 941018 NOBODY '' $C" "receive t 941018 091500 17 $C $good r7a" "receive t 941018 091500 1 $C $good r7b"; do
    mkfifo gone
    # opened both ways, which waits for no one; then only the writer is left
    exec 7<>gone
    exec 8>gone
    exec 7>&-
    got=0
    eval "lentilpot $words" >&8 2>told || got=$?
    exec 8>&-
    rm gone
    : >out
    { [ $got -eq 2 ] && grep -qF "Broken pipe" told && [ ! -e t.lock ] && [ ! -e t.new ]; } || fail "lentilpot $words to a reader that left: status $got"
    count=$((count + 1))
done
[ -s r7b ] || fail "the replies are lost where nobody reads the listing"
# a file that may not grow
(ulimit -f 1 && lentilpot receive t 941018 091500 1 $C "$good" r7c >out 2>told) && fail "a limit on a file's size was overrun"
{ grep -qF "File too large" told && [ ! -e t.lock ] && [ ! -e t.new ] && [ ! -e r7c.run ]; } || fail "expected to be told of the limit, and nothing left over"

# ---- refusal 4 says which half and the days
cp t before
ends 1 "refused 4: 941301 isn't a real date; the table's day is 941018" '' order t 941301 $ID "" $C
ends 1 "refused 4: 941017 is before the table's day 941018" '' order t 941017 $ID "" $C
ends 1 "refused 4: 941017 is before the table's day 941018" '' receive t 941017 091500 1 $C "$good" r8
ends 1 "refused 4: 246060 isn't a real time; the table's day is 941018" '' receive t 941018 246060 1 $C "$good" r8
ends 1 "refused 4: 940230 isn't a real date; the table's day is 941018" '' add t 940230 OTHER "" $P1 $P2 028E4C 0 1 yes no
ends 1 "refused 4: 941017 is before the table's day 941018" '' key t 941017 $ID "" $P1 $P2 028E4C 1
printf '941024\n941131\n' >unreal
ends 1 "refused 4: 941131, a holiday, isn't a real date" '' setup n 003701234567 "" "FRONT 4" 110 $K $K unreal

# ---- a day far past the table's must be meant
for words in "order t 941119 $ID '' $C" "add t 941119 OTHER '' $P1 $P2 028E4C 0 1 yes no" "key t 951018 $ID '' $P1 $P2 028E4C 1" "receive t 151018 091500 1 $C $good r8"; do
    eval "ends 2 '' \"days after the table's day 941018\" $words"
done
{ cmp -s t before && [ ! -e r8 ] && [ ! -e t.lock ]; } || fail "a day that wasn't meant changed something"
cp t far
ends 0 ok '' order far 941118 $ID "" $C
ends 0 '' "the table's day is now 951018" receive far 951018 091500 1 $C empty r9 --later
ends 2 '' "this command has no option '--later'" show far --later
ends 2 '' "this command has no option '--explian'" receive far 951018 091500 1 $C empty r10 --explian

# ---- refusal 11 says which word and its limits, refusal 12 which kind of key and the changeover's last day
NAMES='of A-Z, 0-9, blank and %()*+,-./:;<=>'
ends 1 "refused 11: TYPE is outside its limits: expected a data type, 1 to 16" '' receive t 941018 091500 17 $C "$good" r8
ends 1 "refused 11: BANK is outside its limits: expected up to 17 $NAMES, not all blank" '' setup x bank "" S 110 $K $K
ends 1 "refused 11: BANK is outside its limits: expected" '' setup x "" "" S 110 $K $K
ends 1 "refused 11: QUALIFIER is outside its limits: expected up to 8 $NAMES" '' setup x BANK a S 110 $K $K
ends 1 "refused 11: SOFTWARE is outside its limits: expected up to 16 $NAMES, not all blank" '' setup x BANK "" "" 110 $K $K
ends 1 "refused 11: FLOOR is outside its limits: expected 110 or 120" '' setup x BANK "" S 115 $K $K
printf '941226\n941206\n' >falling
ends 1 "refused 11: HOLIDAYS is outside its limits: expected rising days, each of them once" '' setup x BANK "" S 110 $K $K falling
awk 'BEGIN { for (y = 80; y < 97; y++) for (m = 1; m < 13; m++) printf "%02d%02d01\n", y, m }' | head -n 201 >many
ends 1 "refused 11: HOLIDAYS is outside its limits: expected at most 200 days" '' setup x BANK "" S 110 $K $K many
{ [ ! -e x ] && [ ! -e x.lock ]; } || fail "a refused set-up left something"
ends 1 "refused 11: IDENTITY is outside its limits: expected up to 17 $NAMES, not all blank" '' add t 941018 a "" $P1 $P2 028E4C 0 1 yes no
ends 1 "refused 11: QUALIFIER is outside its limits: expected up to 8 $NAMES" '' add t 941018 A a $P1 $P2 028E4C 0 1 yes no
ends 1 "refused 11: LENGTH is outside its limits: expected days, 1 to 60" '' add t 941018 A "" $P1 $P2 028E4C 0 1 yes no 61
cp base two
ends 0 ok '' order two 941017 $ID "" $C
ends 1 "refused 12: the changeover from the previous working key is not past; its last day is 941116" '' order two 941018 $ID "" $C
ends 0 ok '' key two 941018 $ID "" $P1 $P2 028E4C 1
ends 1 "refused 12: the changeover from the previous transport key is not past; its last day is 941117" '' key two 941019 $ID "" $P1 $P2 028E4C 2
[ ! -e two.lock ] || fail "a refusal left its lock"

# ---- standard input
cp base t
ends 0 'K 1001' '' receive t 941017 091500 1 $C - r11 <"$good"
cmp -s r11 r1 || fail "standard input gives other replies"
printf '%s\n%s\r\n' $P1 $P2 >parts
printf '%s\n' $K >k
ends 0 ok '' setup n 003701234567 "" "FRONT 4" 110 @k @k
ends 0 ok '' add n 941014 $ID "" - - 028E4C 0 1 yes no <parts
ends 2 '' "PART2: expected 16 hex digits, 0-9 and A-F, as the next line of standard input" add n 941014 $ID B - - 028E4C 0 1 yes no <k
ends 2 '' "K: expected 16 hex digits, 0-9 and A-F, as the first line of its file" setup m B "" S 110 @"$good" $K
ends 2 '' "missing: No such file" setup m B "" S 110 $K @missing
ends 2 '' "can't read the file that holds a key: .: Is a directory" setup m B "" S 110 $K @.
ends 2 '' "V: expected the name of a file, without control characters" setup m B "" S 110 $K "@$(printf 'a\033[2J')"
ends 2 '' "V: expected the name of a file, not an empty word" setup m B "" S 110 $K @
ends 0 'transport  generation 0 check value 028E4C' '' show n $ID ""

# ---- show
ends 0 'stamps     3 of 64 held' '' show t $ID ""
[ "$(grep -c '^customer' out)" -eq 1 ] || fail "show of one customer"
ends 1 'refused 7: ' '' show t $ID X
ends 2 '' 'QUALIFIER: expected' show t $ID
ends 0 ok '' order n 941014 $ID "" $C
ends 0 'changeover 941014 to 941113' '' show n
! grep -qF '(past)' out || fail "a changeover is past too early"
ends 0 '' "the table's day is now 941114" receive n 941114 091500 1 $C empty r12
ends 0 'changeover 941014 to 941113 (past)' '' show n

# ---- explanations: the listing with more beside it
cp base t
got=0
lentilpot receive t 941017 091500 1 $C "$root/samples/damaged.txt" r13 --explain >out 2>told || got=$?
{ [ $got -eq 1 ] && [ ! -s told ]; } || fail "receive --explain: status $got"
cmp -s r13 r3 || fail "--explain changes the replies"
cut -c1-6 out | head -3 >codes
[ "$(cat codes)" = "$(printf 'K 1001\nE 1019\nK 1001')" ] || fail "--explain lists other codes"
grep -q '^E 1019  batch 1, lines 2 to 9, byte [0-9]*: .*99910000011111111' out || fail "--explain doesn't say which batch"
grep -q '^accepted 2, refused 1$' out || fail "--explain doesn't count"
[ "$(find . -name "r13*" | wc -l)" -eq 1 ] || fail "--explain left a file"
got=0
lentilpot explain r3 >out 2>told || got=$?
{ [ $got -eq 1 ] && grep -qF 'TIIVISTE EI TÄSMÄÄ' out && grep -q '^accepted 2, refused 1$' out; } || fail "explain"
ends 2 '' 'not a file of replies' explain "$good"
ends 2 '' 'No such file' explain missing

# ---- progress on a terminal: a line that is written over, and nothing of it elsewhere
if command -v script >/dev/null 2>&1; then
    cp base t
    { head -n 10 "$good"; yes "$(printf '%072d' 0)" | head -c 9000000; } >long
    words="sh '$root/scripts/runbin' '$program' receive t 941017 091500 1 $C long"
    script -qec "$words r20 >out" /dev/null </dev/null >terminal 2>&1 || true
    { tr '\r' '\n' <terminal | grep -qx '4 MB ' && tr '\r' '\n' <terminal | grep -qx '8 MB '; } || fail "no progress is shown on a terminal: $(tr '\r' '/' <terminal | head -c 300)"
    [ "$(cat out)" = "$(printf 'K 1001\nK 1001\nE 1024')" ] || fail "another listing of a long file"
    cp base t
    eval "$words r21" >out 2>told || true
    [ ! -s told ] || fail "progress is shown where there is no terminal"
    count=$((count + 2))
fi

# ---- the table's owner and mode stay
cp base t
chmod 640 t
ends 0 ok '' order t 941017 $ID "" $C
[ "$(stat -c %a t)" = 640 ] || fail "the table's mode changed to $(stat -c %a t)"
chmod 600 t
if [ "$(id -u)" -eq 0 ]; then
    chown 65534:65533 t
    ends 0 'K 1002' '' receive t 941017 091500 1 $C "$good" r14
    [ "$(stat -c '%u:%g %a' t)" = "65534:65533 600" ] || fail "the table's owner changed"
fi
(umask 000 && lentilpot setup open B "" S 110 $K $K >out 2>told)
[ "$(stat -c %a open)" = 600 ] || fail "a new table's mode is $(stat -c %a open)"
if [ -n "$huge" ]; then
    wait $huge
    cp huge.out out
    cp huge.told told
    { [ "$(cat huge.status)" -eq 1 ] && [ "$(cat out)" = "E 1034" ] && [ ! -s told ]; } || fail "a file past the size: status $(cat huge.status)"
    ends 1 'the file is too large: send it as several files' '' explain huge.r
fi
echo "status: $count calls ended with the status and the words expected"
