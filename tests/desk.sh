#!/bin/sh
# The desk on the customer's side, samples/desk.c: the sample bank receives files, and the desk checks what it answers. Replies of the bank pass,
# what the bank refuses is told, a reply with a byte changed never passes, an enclosed key is kept and the next file's replies pass under it;
# both sides read out the same check values; trouble is told and changes nothing, and wherever a run is cut off the desk is whole.
# usage: sh tests/desk.sh     (LENTILPOT_LIB: a folder with libedge.a and libdesk_edge.a; where it isn't set the archives are made)
set -eu
[ -z "${LENTILPOT_LIB:-}" ] || LENTILPOT_LIB=$(cd "$LENTILPOT_LIB" && pwd)
cd "$(dirname "$0")/.."
root=$(pwd -P)
command -v cc >/dev/null 2>&1 || { echo "desk: 'cc' is not on the PATH." >&2; exit 2; }
work=$(mktemp -d /dev/shm/desk.XXXXXX 2>/dev/null || mktemp -d)
trap 'rm -rf "$work"' EXIT
work=$(cd "$work" && pwd -P)
if [ -z "${LENTILPOT_LIB:-}" ]; then
    for name in edge desk_edge; do
        sh scripts/nativelib $name >"$work/log" 2>&1 || { cat "$work/log" >&2; exit 1; }
    done
    LENTILPOT_LIB=$root/target/native
fi
strict() { cc -std=c99 -Wall -Wextra -Wpedantic -Werror -O2 -Iinclude "$@"; }
fail() { echo "desk: $*" >&2; exit 1; }
mkdir "$work/bin"
strict samples/desk.c "$LENTILPOT_LIB/libdesk_edge.a" -o "$work/bin/desk"
strict samples/receive.c "$LENTILPOT_LIB/libedge.a" -o "$work/bin/receive"
strict tests/bank.c "$LENTILPOT_LIB/libedge.a" -o "$work/bin/bank"
cd "$work"
samples=$root/samples
parts="F18C57209492FEB3 C71A7502021A022F"

# ---- the bank and the desks

bin/bank bank
program=${PROGRAM:-$root/target/program/lentilpot}
if [ -x "$program" ]; then
    . "$root/samples/bank.sh"
    make_bank other >made
    # a table ends where its length says, here after three holidays and two customers; what follows is unread
    for table in bank other; do head -c $((82 + 3 * 4 + 2 * 1109)) $table >$table.table; done
    cmp bank.table other.table || fail "tests/bank.c isn't the bank of samples/bank.sh"
fi
run() { # STATUS WORDS..
    expected=$1 status=0
    shift
    bin/desk "$@" >out 2>err <in || status=$?
    [ $status -eq "$expected" ] || fail "desk $*: expected the status $expected, got $status: $(cat out err)"
    [ ! -e held.new ] || fail "desk $*: held.new is left"
}
# What is read out by telephone, in the words of the bank's `show`: of the transport key, then of the working key.
values() { printf 'transport  generation %s check value %s\nworking    generation %s check value %s\n' "$@"; }
shows() { # HELD GENERATION CHECK GENERATION CHECK
    desk=$1
    shift
    values "$@" >want
    run 0 show "$desk"
    { diff want out >&2 && [ ! -s err ]; } || fail "desk show $desk: '<' was expected, and no more: $(cat err)"
}
# shellcheck disable=SC2086 # two words, each a line
printf '%s\n' $parts >in
run 0 open held 99910000011111111 "" 003701234567 "" 028E4C 0
[ "$(cat out)" = "$(echo ok && values 0 028E4C 0 CA89F7)" ] || fail "open says: $(cat out)"
shows held 0 028E4C 0 CA89F7
case $(ls -l held) in -rw-------*) ;; *) fail "others can read a new desk" ;; esac
run 0 open second 99910000011111111 B 003701234567 "" 028E4C 0
cp held opened

# The bank receives a sample file, or another one, as on Monday 17 October 1994.
receives() { # FILE REPLIES [TYPE DATE]
    bin/receive t "$1" "${4:-941017}" 091500 "${3:-1}" 0000000000000001 "$2" >listed || [ $? -eq 1 ] || fail "receiving $1"
}
# The desk's listing is what stands on standard input; nothing else is told but on standard error the text, if one is given.
finds() { # STATUS HELD FILE REPLIES [TEXT]
    cat >want
    run "$1" check "$2" "$3" "$4"
    diff want out >&2 || fail "desk check $2 $3 $4: '<' was expected"
    if [ $# -eq 5 ]; then
        grep -qF -- "$5" err || fail "desk check $2 $3 $4: expected '$5', got: $(cat err)"
    else
        [ ! -s err ] || fail "desk check $2 $3 $4: $(cat err)"
    fi
}
stays() { cmp -s "$1" "$2" || fail "the desk was changed: $3"; }

# ---- files of the sample bank

cp bank t
receives "$samples/good.txt" good
finds 0 held "$samples/good.txt" good <<END
K 1001: passes (ESI, 941017073000001)
K 1001: passes (batch 1, 941017073000002)
K 1001: passes (batch 2, 941017073000003)
END
# Line ends of either kind, and an empty line.
awk '{ printf "%s\r\n", $0 } END { print "" }' good >good.cr
LC_ALL=C sed 's/\r$//' "$samples/good.txt" >good.lf
run 0 check held good.lf good.cr
diff want out >&2 || fail "with other line ends '<' was expected"
receives "$samples/good.txt" again
finds 1 held "$samples/good.txt" again <<END
E 1018: passes, refused by the bank (ESI, 941017073000001)
no reply: 3029: no PTE came (batch 1, 941017073000002)
no reply: 3029: no PTE came (batch 2, 941017073000003)
END
receives "$samples/damaged.txt" damaged
finds 1 held "$samples/damaged.txt" damaged <<END
K 1001: passes (ESI, 941017080000001)
E 1019: passes, refused by the bank (batch 1, 941017080000002)
K 1001: passes (batch 2, 941017080000003)
END
receives "$samples/second.txt" others
finds 0 second "$samples/second.txt" others <<END
K 1001: passes (ESI, 941017073000001)
K 1001: passes (batch 1, 941017073000002)
K 1001: passes (batch 2, 941017073000003)
END
finds 1 held "$samples/second.txt" others <<END
K 1001: 3021: the receiver is another customer (ESI, 941017073000001)
K 1001: 3021: the receiver is another customer (batch 1, 941017073000002)
K 1001: 3021: the receiver is another customer (batch 2, 941017073000003)
END
# The file that was answered isn't this one.
finds 1 held "$samples/damaged.txt" good <<END
K 1001: 3022: the stamp isn't the one that was sent (ESI, 941017080000001)
K 1001: 3027: SUO and PTE differ in a field: field 12, AIKALEIMA (batch 1, 941017080000002)
K 1001: 3027: SUO and PTE differ in a field: field 12, AIKALEIMA (batch 2, 941017080000003)
END
receives "$samples/unknown.txt" unknown
finds 1 held "$samples/unknown.txt" unknown <<END
E 1033: 3010: a field's format is wrong: field 17, TARKISTE (ESI, 941017073000001)
no reply: 3029: no PTE came (batch 1, 941017073000002)
no reply: 3029: no PTE came (batch 2, 941017073000003)
END
receives "$samples/newer.txt" newer
finds 0 held "$samples/newer.txt" newer <<END
K 1001: passes (ESI, 941017100000001)
K 1001: passes (batch 1, 941017100000002)
END
stays held opened "no key was enclosed"

# ---- replies that are lost, exchanged, or answer no message

receives "$samples/batches.txt" batches
run 0 check held "$samples/batches.txt" batches
[ "$(grep -c '^K 1001: passes (' out)" -eq 21 ] || fail "21 replies pass: $(cat out)"
sed 3d batches >lost
run 1 check held "$samples/batches.txt" lost
{ [ "$(grep -c '^K 1001: passes (' out)" -eq 20 ] && [ "$(tail -n 1 out)" = "no reply: 3029: no PTE came (batch 2, 941017090000002)" ]; } ||
    fail "the second batch's reply is lost: $(cat out)"
awk 'NR == 3 { held = $0; next } { print } NR == 4 { print held }' batches >exchanged
run 0 check held "$samples/batches.txt" exchanged
[ "$(grep -c '^K 1001: passes (' out)" -eq 21 ] || fail "two replies are exchanged: $(cat out)"
sed 1d batches >lost
run 1 check held "$samples/batches.txt" lost
[ "$(tail -n 1 out)" = "no reply: 3032: the reply is too short (ESI, 941017090000000)" ] || fail "the ESI's reply is lost: $(cat out)"

# The bank got a file that was cut off in its second batch; and a file that was sent so.
cp bank t
head -n 12 "$samples/good.txt" >part
receives part part.replies
finds 1 held "$samples/good.txt" part.replies <<END
K 1001: passes (ESI, 941017073000001)
K 1001: passes (batch 1, 941017073000002)
E 1024: 3010: a field's format is wrong: field 15, KERTA-AVAIN (batch 2, 941017073000003)
END
finds 1 held part part.replies <<END
K 1001: passes (ESI, 941017073000001)
K 1001: passes (batch 1, 941017073000002)
E 1024: not checked, for FILE has no whole message here (batch 2, no stamp)
END
# Two files joined, and a record between batches.
cp bank t
cat "$samples/newer.txt" "$samples/good.txt" >joined
receives joined joined.replies
finds 1 held joined joined.replies "a second ESI stands in it" <<END
K 1001: passes (ESI, 941017100000001)
K 1001: passes (batch 1, 941017100000002)
E 1011: answers no message of FILE
END
cp bank t
receives "$samples/payments.txt" payments 3 941015
finds 1 held "$samples/payments.txt" payments "the enclosed working key is kept: generation 1 check value 334490. Compare this with the bank by telephone" <<END
K 1001: passes (ESI, 941015073000001)
K 1001: passes (batch 1, 941015073125001)
E 1019: passes, refused by the bank (batch 2, 941015073126001)
E 1023: answers no message of FILE
K 1003: passes, a key is enclosed (batch 3, 941015073127001)
END

# ---- an enclosed key is kept

# The keys of the working kind: the desk's at 69; the bank's first customer's at 57 behind a header of 82 and three holidays (docs/FORMAT.md).
# And what both sides read out by telephone: the check value by another DES, and the bank's own `show` where the program is built.
together() { # HELD CHECK WHEN
    dd if="$1" bs=1 skip=69 count=19 2>/dev/null >ours
    dd if=t bs=1 skip=$((82 + 3 * 4 + 57)) count=19 2>/dev/null >theirs
    cmp -s ours theirs || fail "the desk and the bank have parted: $3"
    shows "$1" 0 028E4C 1 "$2"
    [ -x "$program" ] || return 0
    lentilpot show t 99910000011111111 "" >shown
    grep -E '^  (transport|working) ' shown | sed 's/^  //; s/,.*//' | diff out - >&2 || fail "the desk (<) and the bank (>) read out other check values: $3"
}
together held 334490 "a batch asked for a key"
cp bank t
cp opened held
receives "$samples/asking.txt" asking
cat >both <<END
K 1003: passes, a key is enclosed (ESI, 941017110000001)
K 1002: passes, a key is enclosed (batch 1, 941017110000002)
END
chmod 640 held
finds 0 held "$samples/asking.txt" asking "the enclosed working key is kept: generation 1 check value 334490" <both
case $(ls -l held) in -rw-r-----*) ;; *) fail "the desk's mode isn't kept" ;; esac
together held 334490 "an ESI asked for a key"
cp held renewed
finds 0 held "$samples/asking.txt" asking "the enclosed working key is kept: generation 1 check value 334490" <both
stays held renewed "the same key was enclosed"
receives "$samples/renewed.txt" later
finds 0 held "$samples/renewed.txt" later <<END
K 1001: passes (ESI, 941017113000001)
K 1001: passes (batch 1, 941017113000002)
END
# A forged key whose parity is odd passes and is kept, and only the telephone tells: the bank reads out another check value.
cp opened held
LC_ALL=C sed 's/^\(.\{161\}\).\{16\}/\125C2EE6FB8F672E2/' asking >forged
finds 0 held "$samples/asking.txt" forged "generation 1 check value F3A267. Compare this with the bank by telephone" <both
shows held 0 028E4C 1 F3A267
finds 0 held "$samples/asking.txt" asking "generation 1 check value 334490" <both
together held 334490 "the bank's own reply came after a forged one"
# Where there was none: the key before is still good, and the bank's next key takes the forged one's place.
cp opened held
LC_ALL=C sed 's/^\(.\{160\}\)0 \{16\}/\1125C2EE6FB8F672E2/' good >forged
run 0 check held "$samples/good.txt" forged
[ "$(grep -c 'K 1001: passes, a key is enclosed (' out)" -eq 3 ] || fail "a key is forged where there was none: $(cat out)"
run 0 check held "$samples/good.txt" good
[ "$(grep -c 'K 1001: passes (' out)" -eq 3 ] || fail "after a forged key: $(cat out)"
shows held 0 028E4C 1 F3A267
finds 0 held "$samples/asking.txt" asking "generation 1 check value 334490" <both
together held 334490 "the bank's next key came after a forged one"
# A desk that hasn't seen the key can't compare the checksums.
cp opened held
finds 1 held "$samples/renewed.txt" later <<END
K 1001: 3020: the checksum differs (ESI, 941017113000001)
K 1001: 3020: the checksum differs (batch 1, 941017113000002)
END
stays held opened "nothing passed"
# A key of the bank's own order, enclosed with each reply to Friday's file; the first replies are lost. samples/expected/show has what the bank
# reads out of it.
cp bank t
bin/bank t order
ordered=$(sed -n 's/^  working    generation 1 check value \([0-9A-F]\{6\}\),.*/\1/p' "$samples/expected/show")
receives "$samples/friday.txt" friday
sed 1,2d friday >last
finds 1 held "$samples/friday.txt" last "the enclosed working key is kept: generation 1 check value $ordered" <<END
K 1002: passes, a key is enclosed (batch 2, 941014170000003)
no reply: 3032: the reply is too short (ESI, 941014170000001)
no reply: 3029: no PTE came (batch 1, 941014170000002)
END
together held "$ordered" "the bank ordered a key"
run 0 check held "$samples/friday.txt" friday
together held "$ordered" "all replies came"
# The next transport key: first another one, then the same.
cp opened held
printf '%s\n' F18C57209492FEB3 C41976010119012C >in
run 0 enter held C4F007 1
[ "$(cat out)" = "$(echo ok && values 1 C4F007 0 CA89F7)" ] || fail "another transport key is entered: $(cat out)"
shows held 1 C4F007 0 CA89F7
cp opened held
# shellcheck disable=SC2086 # two words, each a line
printf '%s\n' $parts >in
run 0 enter held 028E4C 1
{ [ "$(cat out)" = "$(echo ok && values 1 028E4C 0 CA89F7)" ] && ! cmp -s held opened; } || fail "a transport key is entered: $(cat out)"

# ---- a byte is changed on its way: fields 1 to 17, and what follows the reply

cp opened held
for n in 1 2; do
    # Another character of the same kind, so that the form holds and the other checks are reached.
    LC_ALL=C awk -v n=$n '
    function other(c,    all) {
        all = "0123456789ABCDEFGHIJKLMNOPQRSTUVWXYZ"
        if (c ~ /[0-9]/) return (c + 1) % 10
        return index(all, c) ? substr(all, 11 + (index(all, c) - 10) % 26, 1) : c == " " ? "Z" : "0"
    }
    { line[NR] = $0 }
    END {
        for (at = 1; at <= 160; at++) for (i = 1; i <= NR; i++)
            print i == n ? substr(line[i], 1, at - 1) other(substr(line[i], at, 1)) substr(line[i], at + 1) : line[i] > "at." at
    }' newer
    for at in at.*; do
        [ "$(cmp newer "$at" | wc -l)" -eq 1 ] || fail "$at isn't changed"
        run 1 check held "$samples/newer.txt" "$at"
        [ "$(grep -c ': passes' out)" -eq 1 ] || fail "reply $n, changed in ${at#at.}: $(cat out)"
    done
    [ "$(echo at.* | wc -w)" -eq 160 ] || fail "160 places"
    rm at.*
    stays held opened "a changed reply"
    sed "${n}s/\$/X/" newer >longer
    run 1 check held "$samples/newer.txt" longer
    grep -qF '3010: a field'\''s format is wrong: field 2, SANOMAPITUUS' out || fail "a character too many: $(cat out)"
    sed "${n}s/ *\$//" newer >stripped
    run 1 check held "$samples/newer.txt" stripped
    grep -qF '3032: the reply is too short' out || fail "the blanks at the end are stripped: $(cat out)"
done

# ---- trouble and refusals: told, nothing listed, the desk as it was

told() { # STATUS TEXT WORDS..
    text=$2 expected=$1
    shift 2
    run "$expected" "$@"
    { grep -qF -- "$text" err && [ ! -s out ]; } || fail "desk $*: expected '$text', got: $(cat out err)"
    [ ! -e held ] || stays held opened "$*"
}
told 2 "expected: open HELD"
told 2 "expected: open HELD" chek held "$samples/good.txt" good
told 2 "expected: open HELD" check held "$samples/good.txt"
told 2 "expected: open HELD" show
told 2 "expected: open HELD" show held more
told 2 "expected a file's name" show ""
told 2 "never replaced" open held 99910000011111111 "" 003701234567 "" 028E4C 0
told 2 "up to 17 characters" open new 999100000111111112 "" 003701234567 "" 028E4C 0
told 2 "up to 17 characters" open new 99910000011111111 123456789 003701234567 "" 028E4C 0
told 2 "CHECK, 6 hex digits" open new 99910000011111111 "" 003701234567 "" 28E4C 0
told 2 "GENERATION, one digit" open new 99910000011111111 "" 003701234567 "" 028E4C 10
told 1 "refused 9: the check value differs" open new 99910000011111111 "" 003701234567 "" 028E4D 0
told 1 "refused 11: expected identities" open new abc "" 003701234567 "" 028E4C 0
told 1 "refused 11: expected identities" open new 99910000011111111 "" "" "" 028E4C 0
told 1 "refused 10: the new transport generation isn't the next" enter held 028E4C 2
[ ! -e new ] || fail "a refused opening leaves a desk"
for bad in "F18C57209492FEB3" "F18C57209492FEB C71A7502021A022F" "f18c57209492feb3 C71A7502021A022F" "F18C57209492FEB33 C71A7502021A022F" ""; do
    # shellcheck disable=SC2086 # its words, each a line
    printf '%s\n' $bad >in
    told 2 "two key parts on standard input, 16 hex digits" enter held 028E4C 1
done
printf 'F18C57209492FEB2\nC71A7502021A022F\n' >in
told 1 "refused 8: the parity of a key part is even" enter held 028E4C 1
: >in
told 2 "begins with an ESI" check held "$samples/outside.txt" good
told 2 "begins with an ESI" check held "$samples/empty.txt" good
told 2 "No such file" check held none good
told 2 "No such file" check held "$samples/good.txt" none
told 2 "expected a desk" check none "$samples/good.txt" good
told 2 "expected a desk" show none
ln -s held link
told 2 "no link" check link "$samples/good.txt" good
told 2 "no link" show link
ln held hard
told 2 "no link" check hard "$samples/good.txt" good
rm hard link
head -c 87 held >short
told 2 "88 bytes" check short "$samples/good.txt" good
told 2 "88 bytes" show short
head -c 88 /dev/zero >zeros
told 2 "no desk is written in it" check zeros "$samples/good.txt" good
told 2 "no desk is written in it" show zeros
: >held.new
values 0 028E4C 0 CA89F7 >want
{ bin/desk show held >out 2>err && diff want out >&2 && [ ! -s err ] && [ -e held.new ]; } || fail "show while held.new is there: $(cat out err)"
status=0
bin/desk check held "$samples/good.txt" good >out 2>err || status=$?
{ [ $status -eq 2 ] && [ ! -s out ] && [ -e held.new ] && grep -qF "another run has this desk" err; } || fail "held.new is there: $(cat out err)"
rm held.new
stays held opened "held.new was there"
for closed in '<&-' '>&-' '2>&-'; do
    status=0
    eval "bin/desk check held '$samples/good.txt' good $closed" >out 2>err || status=$?
    { [ $status -eq 2 ] && [ ! -e held.new ]; } || fail "with $closed: status $status"
    stays held opened "with $closed"
done
if [ -c /dev/full ]; then
    status=0
    bin/desk show held >/dev/full 2>err || status=$?
    { [ $status -eq 2 ] && grep -qF "can't list the check values" err; } || fail "show, and standard output is full: status $status"
    status=0
    # shellcheck disable=SC2086 # two words, each a line
    printf '%s\n' $parts | bin/desk enter held 028E4C 1 >/dev/full 2>err || status=$?
    { [ $status -eq 2 ] && grep -qF "the desk is saved; 'desk show' lists them again" err; } || fail "enter, and standard output is full: status $status"
    shows held 1 028E4C 0 CA89F7
    cp opened held
    status=0
    bin/desk check held "$samples/asking.txt" asking >/dev/full 2>err || status=$?
    { [ $status -eq 2 ] && grep -qF "the desk is saved" err && cmp -s held renewed; } || fail "standard output is full: status $status"
fi

# ---- the order of writes, and every moment at which it can be cut off

if ! command -v strace >/dev/null 2>&1 || ! strace -o /dev/null true 2>/dev/null; then
    echo "desk: the sample's desk finds what it should; the order of writes was not tested: it needs strace"
    exit 0
fi
calls="openat open write fsync fchown fchmod rename renameat renameat2 unlink unlinkat"
cp opened held
# shellcheck disable=SC2086 # its words
strace -y -o trace -e "trace=/^($(echo $calls | tr ' ' '|'))\$" bin/desk check held "$samples/asking.txt" asking >out 2>err
sed -n "s|$work>|.>|
    s|$work/||g
    s/^open.*\"\(.*\)\", .*O_CREAT|O_EXCL.*/make \1/p
    s/^fsync([0-9]*<\([^>]*\)>.*/flush \1/p
    s/^rename.*\"\(.*\)\".*= 0/name \1/p
    s/^write(1<.*/list/p" trace | uniq >order
printf '%s\n' 'make held.new' 'flush held.new' 'name held' 'flush .' list | diff - order >&2 || fail "the order of writes (>) isn't the right one (<)"

# Each call in turn is the last one (killed), or fails and the run goes on to tell it.
moments=0 old=0 new=0
cuts() { # HOW
    for call in $calls; do
        n=0
        while :; do
            n=$((n + 1)) status=0 what="$call $n, $1"
            rm -f held.new trace && cp opened held
            { strace -qq -o trace -e "trace=$call" -e "inject=$call:$1:when=$n" bin/desk check held "$samples/asking.txt" asking >out 2>err || status=$?; } 2>/dev/null
            grep -qsE 'INJECTED|killed' trace || break
            stands "$1"
            rm -f held.new
            run 0 check held "$samples/asking.txt" asking
            { diff both out >&2 && cmp -s held renewed; } || fail "$what: checked again"
        done
    done
}
# The desk is old or new, whole, and nothing is listed before it is saved; a call that failed is told, or didn't matter.
stands() { # HOW
    moments=$((moments + 1))
    if cmp -s held renewed; then
        new=$((new + 1))
    else
        stays held opened "$what"
        [ ! -s out ] || fail "$what: a finding was listed before the desk was saved"
        old=$((old + 1))
    fi
    [ "$1" = signal=KILL ] && return
    case $status in
    0) { cmp -s out both && cmp -s held renewed; } || fail "$what: status 0, and not all was done" ;;
    2 | 127) { [ -s err ] && [ ! -e held.new ]; } || fail "$what: it isn't told, or held.new is left" ;;
    *) fail "$what: status $status" ;;
    esac
}
cuts signal=KILL
cuts error=EIO
{ [ $old -gt 0 ] && [ $new -gt 0 ]; } || fail "every moment gave the same desk"
echo "desk: the sample's desk finds what it should; cut off or failing at $moments calls, $old left the old desk and $new the new one"
