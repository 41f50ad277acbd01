#!/bin/bash
# Both sides end to end: `bureau make`, `lentilpot receive`, `bureau check`. The first file with working key 0, a key that is asked for, the file after it, a batch that is
# refused, a reply that is lost and asked for again, SKH and SKE, LF and CR LF, blanks at records' ends and characters outside the table, 10 MB; at the end both sides have
# the same keys. Then the words, the statuses, and the desk's file damaged.
set -eu
root=$(cd "$(dirname "$0")/.." && pwd -P)
program=${PROGRAM:-$root/target/program/lentilpot}
bureau_program=${BUREAU:-$root/target/program/bureau}
. "$root/samples/bank.sh"
. "$root/samples/desk.sh"
work=$(cd "$(mktemp -d)" && pwd -P)
trap 'rm -rf "$work"' EXIT
cd "$work"
count=0
fail() { echo "tests/bureau: $*" >&2; for f in out told; do sed "s/^/  $f: /" $f >&2; done; exit 1; }
# The status, and a text on standard output and on standard error each ('' for nothing there).
ends() { # STATUS OUT TOLD WORDS..
    want=$1 out=$2 told=$3
    shift 3
    got=0
    bureau "$@" >out 2>told || got=$?
    [ $got -eq "$want" ] || fail "bureau $*: status $got, expected $want"
    if [ -n "$out" ]; then grep -qF -- "$out" out || fail "bureau $*: expected '$out' on standard output"; else [ ! -s out ] || fail "bureau $*: expected nothing on standard output"; fi
    if [ -n "$told" ]; then
        { grep -qF -- "$told" told && [ "$(wc -l <told)" -eq 1 ]; } || fail "bureau $*: expected one line with '$told' on standard error"
        grep -q '^bureau: ' told || fail "bureau $*: the line begins otherwise"
    else
        [ ! -s told ] || fail "bureau $*: expected nothing on standard error"
    fi
    count=$((count + 1))
}
# The bank receives a file at a time; the codes that it answers.
bank() { # FILE TIME CODES
    lentilpot receive bank.table 941017 "$2" 1 "0000000000$2" "$1" "$1.replies" >listing 2>told || [ $? -eq 1 ] || fail "the bank did not receive $1"
    [ "$(tr '\n' ' ' <listing)" = "$3 " ] || { cat listing >>out; fail "the bank answered $1 otherwise than $3"; }
    count=$((count + 1))
}
# A key of each side by generation and check value.
keys_of() { grep -E '^ *(transport|working) ' | sed 's/ changeover .*//; s/^ *//; s/  */ /g; s/, previous.*//'; }

make_bank bank.table >made
make_desk desk >out 2>told || fail "the desk can't be opened"
[ "$(cat out)" = "ok
transport   generation 0 check value 028E4C
working     generation 0 check value CA89F7" ] || fail "the check values of a new desk"
[ "$(stat -c %a desk)" = 600 ] || fail "the desk is not for its owner alone"
[ "$(stat -c %s desk)" -eq 16640 ] || fail "the desk's size"

# ---- records as they come: blanks at their ends, characters outside the table, empty ones, CR LF, no line end at the last
printf 'MATTI MEIKALAINEN      100,00   \nTEPPO TESTAAJA         200,00\n' >wages
printf 'blanks at the end     \r\n\r\n   \r\n#$&@ [\\] \344\366\305 \001\377 >>PTE >>va\r\nlast without an end' >odd
printf 'a CR\rwithin \r\n' >within
printf '>>VA' >short

# ---- the first file, with working key 0; both line ends
ends 0 'file 1: ESI and 2 batches, ' '' make desk 941017 080000 0000000000000100 SKH f1 wages odd
bank f1 081500 "K 1001 K 1001 K 1001"
ends 0 'file 1 batch 2 941017080000003: K 1001: passes' '' check desk f1.replies
[ "$(wc -l <out)" -eq 3 ] || fail "a line for each message was expected"
ends 0 'file 2: ESI and 4 batches, ' '' make desk 941017 080001 0000000000000200 SKE f2 wages odd within short --crlf --area-a
[ "$(grep -c "$(printf '\r')\$" f2)" -eq "$(wc -l <f2)" ] || fail "a line of f2 does not end in CR LF"
grep -q '^MATTI MEIKALAINEN      100,00   .$' f2 || fail "the blanks at a record's end are lost"
bank f2 081600 "K 1001 K 1001 K 1001 K 1001 K 1001"
sed "s/\$/$(printf '\r')/" f2.replies >f2.crlf
ends 0 'file 2 ESI 941017080001001: K 1001: passes' '' check desk f2.crlf

# ---- a key is asked for; its reply is lost and comes again
ends 0 'file 3: ESI and 2 batches, ' '' make desk 941017 090000 0000000000000300 SKH f3 wages odd --ask
bank f3 091500 "K 1001 K 1001 K 1003"
head -n 2 f3.replies >f3.lost
ends 1 'file 3 batch 2 941017090000003: no reply: 3029' '' check desk f3.lost
ends 0 'waiting     1' '' show desk
grep -q '^  file 3 batch 2 941017090000003$' out || fail "show does not list what waits"
tail -n 1 f3.replies >f3.again
ends 0 'the enclosed working key is kept: generation 1 check value ' '' check desk f3.again
grep -q '^file 3 ESI 941017090000001: K 1001: passed before$' out || fail "what was answered before is not told"
cp desk kept
ends 0 'file 3 batch 2 941017090000003: K 1003: passes' '' check desk f3.replies
cmp -s desk kept || fail "replies checked again change the desk"
lentilpot show bank.table 99910000011111111 "" | keys_of >banks
bureau show desk | keys_of >ours
cmp -s banks ours || fail "the keys differ after a change"

# ---- the file after it, under the new key; a batch changed on its way is refused, and the others are not
ends 0 'file 4: ESI and 3 batches, ' '' make desk 941017 100000 0000000000000400 SKE f4 wages odd short
sed 's/TEPPO/SEPPO/' f4 >f4.changed
bank f4.changed 101500 "K 1001 E 1019 K 1001 K 1001"
ends 1 'file 4 batch 1 941017100000002: E 1019: passes, the bank refused it: 10:15:00 TIIVISTE EI T' '' check desk f4.changed.replies
[ "$(grep -c 'K 1001: passes' out)" -eq 3 ] || fail "three accepted messages were expected"
ends 0 'waiting     0' '' show desk

# ---- a file whose ESI is refused: nothing of it was looked at. Its stamp is used already
ends 0 'file 5: ESI and 1 batch, ' '' make desk 941017 110000 0000000000000500 SKH f5 wages
cp desk before-sending
bank f5 111500 "K 1001 K 1001"
cp f5 f5.twice
bank f5.twice 111600 "E 1018"
ends 1 'file 5 batch 1 941017110000002: not looked at this time: the bank has had the file before. Ask it' '' check desk f5.twice.replies
cp desk after-twice
ends 0 'file 5 batch 1 941017110000002: K 1001: passes' '' check desk f5.replies
cp after-twice desk
ends 1 'file 5 batch 1 941017110000002: not looked at this time' '' check desk f5.twice.replies
cp before-sending desk
ends 0 'file 5 batch 1 941017110000002: K 1001: passes' '' check desk f5.replies
# a reply without a checksum never passes; a reply changed on its way neither
ends 0 'file 6: ESI and 1 batch, ' '' make desk 941017 120000 0000000000000600 SKH f6 wages
sed 's/>>ESI161120/>>ESI161100/' f6 >f6.old
bank f6.old 121500 "E 1012"
ends 1 'file 6 ESI 941017120000001: E 1012: 3010 TARKISTE: the reply has no checksum' '' check desk f6.old.replies 6
grep -q "^file 6 batch 1 941017120000002: no reply: 3029: no PTE came. The E to the ESI may not be the bank's: ask the bank" out || fail "an E that anyone may have written is believed"
bank f6 121600 "K 1001 K 1001"
sed 's/K1001/K1005/' f6.replies >f6.forged
ends 1 'file 6 ESI 941017120000001: K 1005: 3020: the checksum differs' '' check desk f6.forged
ends 0 'file 6 batch 1 941017120000002: K 1001: passes' '' check desk f6.replies
# data outside a batch: that reply answers nothing
ends 0 'file 7: ESI and 1 batch, ' '' make desk 941017 130000 0000000000000700 SKH f7 wages
{ sed 1q f7 && echo stray && sed 1d f7; } >f7.stray
bank f7.stray 131500 "K 1001 E 1023 K 1001"
ends 1 'file 7: E 1023: answers no message of the file' '' check desk f7.stray.replies
grep -q '^file 7 batch 1 941017130000002: K 1001: passes$' out || fail "the batch after a stray reply"
# another customer's replies, and those of another bank
ends 0 'file 8: ESI and 0 batches, ' '' make desk 941017 140000 0000000000000800 SKH f8 --end
bank f8 141500 "K 1036"
sed 's/99910000011111111  /99910000011111111B /' f8.replies >f8.other
ends 1 'file 8 ESI 941017140000001: K 1036: 3021: the reply is for another customer' '' check desk f8.other
head -c 200 f8.replies >f8.short
ends 1 'file 8 ESI 941017140000001: K 1036: 3032' '' check desk f8.short
ends 0 'file 8 ESI 941017140000001: K 1036: passes' '' check desk f8.replies

# a stamp ahead of the bank's day: the whole reply is the bank's own
cp desk ahead
ends 0 'file 9: ESI and 1 batch, ' '' make ahead 941018 080000 0000000000000850 SKH f8.ahead wages
bank f8.ahead 141600 "E 1016"
ends 1 'file 9 batch 1 941018080000002: not looked at by the bank, since the ESI was refused.' '' check ahead f8.ahead.replies

# ---- the next transport key, on both sides; files under it
printf '%s\n' F18C57209492FEB3 >one
printf '%s\n' C41976010119012C >two
lentilpot key bank.table 941017 99910000011111111 "" F18C57209492FEB3 C41976010119012C C4F007 1 >out 2>told || fail "the bank's next key"
ends 1 'refused 9: ' '' key desk @one @two 000000 1
ends 1 'refused 10: ' '' key desk @one @two C4F007 2
ends 2 '' "PART1: expected -, for the next line of standard input, or @NAME" key desk F18C57209492FEB3 @two C4F007 1
ends 2 '' "PART2: expected -" key desk @one C41976010119012C C4F007 1
ends 2 '' "can't open the file that holds a key" key desk @none @two C4F007 1
ends 0 'transport   generation 1 check value C4F007, previous 0 check value 028E4C' '' key desk @one @two C4F007 1
ends 0 'file 9: ESI and 2 batches, ' '' make desk 941017 150000 0000000000000900 SKH f9 wages odd --ask
bank f9 151500 "K 1001 K 1001 K 1003"
ends 0 'the enclosed working key is kept: generation 2 check value ' '' check desk f9.replies

# ---- 10 MB, part by part
awk 'BEGIN { for (i = 0; i < 131072; i++) printf "%-72s%07d \n", "A RECORD OF EIGHTY CHARACTERS", i }' >large
[ "$(stat -c %s large)" -eq 10616832 ] || fail "the large file's size"
ends 0 'file 10: ESI and 2 batches, ' '' make desk 941017 160000 0000000000001000 SKE f10 large wages
bank f10 161500 "K 1001 K 1001 K 1001"
ends 0 'file 10 batch 1 941017160000002: K 1001: passes' '' check desk f10.replies
# one record of 3 MB, with a CR where a read may end
{ head -c 16383 /dev/zero && printf '\r' && head -c 3000000 /dev/zero && printf '\r\nEND\n'; } | tr '\0' X >long
ends 0 'file 11: ESI and 1 batch, ' '' make desk 941017 160001 0000000000001100 SKH f11 long
bank f11 161600 "K 1001 K 1001"
ends 0 'file 11 batch 1 941017160001002: K 1001: passes' '' check desk f11.replies

# ---- both sides' keys at the end
lentilpot show bank.table 99910000011111111 "" | keys_of >banks
bureau show desk | keys_of >ours
{ [ "$(wc -l <ours)" -eq 2 ] && cmp -s banks ours; } || fail "the keys differ at the end: $(cat banks ours)"
grep -q '^transport generation 1 check value C4F007$' ours || fail "the transport key at the end"
grep -q '^working generation 2 ' ours || fail "the working key at the end"

# ---- 63 batches fill the bank's stamps but one; what waits longest makes room
set -- short short short short short short short
set -- "$@" "$@" "$@" "$@" "$@" "$@" "$@" "$@" "$@"
ends 0 'file 12: ESI and 63 batches, ' '' make desk 941017 170000 0000000000001200 SKH f12 "$@"
ends 2 '' "too many words" make desk 941017 170000 0000000000001200 SKH f13 "$@" short
ends 0 'file 13: ESI and 63 batches, ' '' make desk 941017 170001 0000000000001300 SKH f13 "$@"
ends 0 'file 14: ESI and 1 batch, ' "2 of file 12; their replies can't be checked any more" make desk 941017 170002 0000000000001400 SKH f14 wages
ends 0 'waiting     128' '' show desk
head -c 100 f9.replies >cut.replies
ends 2 '' "it can't be told which file these replies answer" check desk cut.replies
ends 1 'file 14 ESI 941017170002001: K 1001: 3032: the reply is too short' '' check desk cut.replies 14
ends 2 '' "keeps no message of a file of that number" check desk cut.replies 11
ends 2 '' "NUMBER: expected" check desk cut.replies x

# ---- what can't be sent, with the file and the line; nothing is kept, nothing is left
cp desk before
cp wages w2
sends() { # TEXT RECORDS
    ends 2 '' "$1" make desk 941018 080000 0000000000002000 SKH bad wages "$2"
    { cmp -s desk before && [ ! -e bad ] && [ ! -e bad.new ] && [ ! -e bad.run ] && [ ! -e desk.new ] && [ ! -e desk.lock ]; } || fail "something changed or is left over"
}
for tag in ESI SUO VAR; do
    printf 'one\ntwo\r\n>>%sX\n' $tag >bad.records
    sends "bad.records: line 3 begins like a message" bad.records
done
printf 'one\nends in\r\r\n' >bad.records
sends "bad.records: line 2 ends in a CR of its own" bad.records
printf 'one\nlast\r' >bad.records
sends "bad.records: line 2 ends in a CR of its own" bad.records
printf '   \n \n\n' >bad.records
sends "bad.records: no character in it that is digested" bad.records
: >bad.records
sends "bad.records: no character in it that is digested" bad.records
sends "can't open the records" none
sends "RECORDS: expected another file than DESK and FILE" desk
sends "RECORDS: expected another file than DESK and FILE" bad.new
sends "nothing was changed: can't read the records" .
printf '   \n' >blanks
ends 0 'file 15: ESI and 1 batch, ' "were forgotten" make desk 941018 080000 0000000000002000 SKE f15 blanks

# ---- words
ends 2 '' "DATE, TIME: expected a time after that of the last file, 941018080000" make desk 941018 080000 0000000000002000 SKH f16 wages
ends 2 '' "DATE, TIME: expected a time after that of the last file, 941018080000" make desk 941017 235959 0000000000002000 SKH f16 wages
ends 1 "refused 13: DATE isn't a real day" '' make desk 941332 080000 0000000000002000 SKH f16 wages
ends 1 "refused 13: TIME isn't a real time" '' make desk 941019 250000 0000000000002000 SKH f16 wages
ends 2 '' "METHOD: expected SKH or SKE" make desk 941019 080000 0000000000002000 SMH f16 wages
ends 2 '' "--ask, --end: expected one of the two" make desk 941019 080000 0000000000002000 SKH f16 wages --ask --end
ends 2 '' "this command has no option '--explain'" make desk 941019 080000 0000000000002000 SKH f16 wages --explain
ends 2 '' "there is a file already, and messages never replace one" make desk 941019 080000 0000000000002000 SKH f15 wages
ends 2 '' "there is a file already, and messages never replace one" make desk 941019 080000 0000000000002000 SKH desk wages
ends 2 '' "COMMAND: expected open, key, make, check, show or help" shw desk
ends 2 '' "too few words: expected open DESK IDENTITY" open new
ends 2 '' "K: expected -, for the next line" open new 99910000011111111 "" 003701234567 "" "PAYROLL 7" @one @two C4F007 1 0123456789ABCDEF @two
ends 2 '' "BANKQUALIFIER: expected at most 8 characters" open new 99910000011111111 "" 003701234567 123456789 "PAYROLL 7" @one @two C4F007 1 @one @two
printf '%s\n' F18C57209492FEB2 >even
ends 1 'refused 8: ' '' open new 99910000011111111 "" 003701234567 "" "PAYROLL 7" @even @two C4F007 1 @one @two
ends 1 'refused 9: ' '' open new 99910000011111111 "" 003701234567 "" "PAYROLL 7" @one @two 000000 1 @one @two
ends 1 'refused 11: BANK is outside its limits' '' open new 99910000011111111 "" "" "" "PAYROLL 7" @one @two C4F007 1 @one @two
ends 1 'refused 11: BANKQUALIFIER is outside its limits' '' open new 99910000011111111 "" 003701234567 a "PAYROLL 7" @one @two C4F007 1 @one @two
ends 1 'refused 11: IDENTITY is outside its limits' '' open new x "" 003701234567 "" "PAYROLL 7" @one @two C4F007 1 @one @two
ends 1 'refused 11: SOFTWARE is outside its limits' '' open new 99910000011111111 "" 003701234567 "" "" @one @two C4F007 1 @one @two
[ ! -e new ] || fail "a refused call made a desk"
ends 2 '' "there is a file already: expected the name of a new desk (an old one would lose its keys)" open desk 99910000011111111 "" 003701234567 "" "PAYROLL 7" @one @two C4F007 1 @one @two
ends 0 'bureau ' '' --version
ends 0 'usage: bureau make DESK' '' make --help
ends 2 '' "can't open the replies" check desk none
ends 2 '' "can't open the desk, expected a file of 16640 bytes, made by 'open'" show none
ln -s desk link
ends 2 '' "a link, which saving would part from its file, and its keys would be lost" show link
ends 2 '' "not the size of a desk: expected a file of 16640 bytes, made by 'open'" show bank.table
# no key stands in what is shown, nor in a process's words
bureau show desk >out
for key in F18C57209492FEB3 C71A7502021A022F C41976010119012C 1F2E3D4C5B6A7988; do ! grep -q $key out || fail "show tells a key"; done

# ---- a desk that is damaged in a byte that counts is never taken for one; nothing is said to be in it
cp desk whole
bytes=0
for at in 0 7 50 59 112 128 143 160 255 308 356 364 365 366 367 368 372 383 16639; do
    cp whole desk
    printf '\377' | dd of=desk bs=1 seek=$at conv=notrunc 2>/dev/null
    ends 2 '' "not a desk, or a damaged one" show desk
    ends 2 '' "not a desk, or a damaged one" check desk f15
    ends 2 '' "not a desk, or a damaged one" make desk 941019 080000 0000000000002000 SKH f16 wages
    { [ ! -e f16 ] && [ ! -e desk.lock ]; } || fail "a damaged desk was used"
    bytes=$((bytes + 1))
done
cp whole desk
ends 0 'files made  15' '' show desk
echo "bureau: $count commands; files made here were accepted there, and the replies passed, under three working keys and two transport keys; a desk damaged in $bytes places was refused"
