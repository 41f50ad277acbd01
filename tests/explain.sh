#!/bin/bash
# `receive --explain` shows the field at fault and its contents: every field of an ESI, a SUO and a VAR is damaged in turn, by characters that no field may have and by a
# value that few may have, and what is shown is compared with the layout of the definitions.
set -eu
root=$(cd "$(dirname "$0")/.." && pwd -P)
program=${PROGRAM:-$root/target/program/lentilpot}
. "$root/samples/bank.sh"
work=$(cd "$(mktemp -d)" && pwd -P)
trap 'rm -rf "$work"' EXIT
cd "$work"
make_bank base >made
fail() { echo "tests/explain: $*" >&2; cat out told >&2 2>/dev/null; exit 1; }

# The layout: name, offset and width of each field, as specs/ has them.
awk '/^ *laid \((sub)?field [0-9 ]+\) "/ { split($0, part, "\""); n = split(part[3], width, " "); print part[2], at + 0, width[1]; at += width[1] }' \
    "$root/crates/message/specs/Layout.antt" | head -22 >layout
{ [ "$(wc -l <layout)" -eq 22 ] && [ "$(tail -1 layout)" = "AVAINVAIHTO 160 1" ]; } || fail "the layout could not be read"

# A message of the sample file, alone in its line, with one field written over.
damaged() { # LINE OFFSET WIDTH CHARACTER
    LC_ALL=C awk -v line="$1" -v at="$2" -v width="$3" -v c="$4" 'NR == line {
        over = sprintf("%" width "s", ""); gsub(/ /, c, over)
        $0 = substr($0, 1, at) over substr($0, at + width + 1)
    } { print }' "$root/samples/good.txt" >file
}
for message in "ESI 1 22" "SUO 10 19" "VAR 13 22"; do
    read -r kind line fields <<<"$message"
    case $kind in ESI) about="ESI, line 1" ;; *) about="batch 2, lines 10 to 13" ;; esac
    head -n "$fields" layout | while read -r name at width; do
        for c in x 9; do
            # a SUO or VAR without its beginning is data
            [ "$name" != SANOMATUNNUS ] || [ "$kind" = ESI ] || continue
            cp base t
            rm -f r
            damaged "$line" "$at" "$width" $c
            got=0
            receive t file r --explain >out 2>told || got=$?
            { [ $got -le 1 ] && [ ! -s told ]; } || fail "$kind, $name: status $got"
            contents=$(printf "%${width}s" '' | tr ' ' $c)
            # which field, and so whether it is a fault of format or of value, is the notice's; a field that may hold it has another fault or none
            LC_ALL=C tr '\n' ' ' <r | LC_ALL=C grep -q "[E]10[1][01]" || [ $c = 9 ] || fail "$kind, $name: a field of x was taken"
            code=$(grep -E '^E 101[01] ' out | cut -c1-6 | head -1)
            [ -n "$code" ] || continue
            case "$kind $name" in
            "ESI SANOMATUNNUS") text="the file doesn't begin with an ESI but with \"$contents\"" ;;
            *) text="field $name of the $kind in line $line, \"$contents\"" ;;
            esac
            grep -E "^$code  $about, byte [0-9]+: " out | grep -qF -- "$text" || fail "$kind, $name, $c: expected '$code  $about … $text'"
            # the notice names it and shows the same, and so does explain, by the notice alone
            lentilpot explain r >explained 2>told && fail "$kind, $name: explain's status"
            grep -A 1 -F "$code" explained | tr -s ' \n' ' ' >joined
            case $code in "E 1010") notice="MUOTOVIRHE KENTÄSSÄ" why="a field's format" ;; *) notice="ARVOVIRHE KENTÄSSÄ" why="a field's value" ;; esac
            grep -qF -- "$code $notice $name $contents" joined || fail "$kind, $name: expected '$notice $name $contents'"
            case "$kind $name" in
            "ESI SANOMATUNNUS") text="the file doesn't begin with an ESI but with \"$contents\". " ;;
            *) text="$why: field $name, \"$contents\" (a ? " ;;
            esac
            grep -qF -- "$text" joined || fail "$kind, $name: expected '$text' of explain"
            echo "$kind $name $code" >>seen
        done
    done
done
{ [ "$(grep -c 1010 seen)" -ge 55 ] && [ "$(grep -c 1011 seen)" -ge 10 ]; } || fail "too few faults: $(grep -c 1010 seen) of format, $(grep -c 1011 seen) of value"

# what differs between SUO and VAR, keys, stamps
explained() { # TEXT FILE
    cp base t
    rm -f r
    receive t "$2" r --explain >out 2>told || [ $? -eq 1 ]
    grep -qF -- "$1" out || fail "expected '$1'"
}
damaged 13 60 17 1
explained 'E 1026  batch 2, lines 10 to 13' file
explained 'field LÄHETTÄJÄ: "99910000011111111        " in the SUO in line 10, "11111111111111111        " in the VAR in line 13' file
sed '1s/^\(.\{85\}\)00/\105/' "$root/samples/good.txt" >file
explained 'names working key 5; held: 0' file
sed '1s/^\(.\{85\}\)0/\14/' "$root/samples/good.txt" >file
explained 'E 1013  ESI, line 1' file
explained 'names transport key 4; held: 0' file
explained 'E 1033  ESI, line 1' "$root/samples/unknown.txt"
explained 'Identity "99910000011111111" qualifier "' "$root/samples/unknown.txt"
explained 'accepted 2, refused 1' "$root/samples/damaged.txt"
cp base t
rm -f r r2
receive t "$root/samples/good.txt" r >out
receive t "$root/samples/good.txt" r2 --explain >out 2>told || [ $? -eq 1 ]
grep -qF 'E 1018  ESI, line 1, byte 163: the time stamp was used before: it is held already. Customer "99910000011111111" qualifier "", stamp 941017 073000 001' out || fail "expected the stamp"
explained "E 1010  ESI, line 1" "$root/samples/outside.txt"

# ---- what was given, and what the bank has
ID=99910000011111111 C=0000000000000001
on() { # TEXT TABLE DATE TYPE FILE
    rm -f r
    lentilpot receive "$2" "$3" 091500 "$4" $C "$5" r --explain >out 2>told || [ $? -eq 1 ]
    grep -qF -- "$1" out || fail "expected '$1'"
}
new_bank() { # TABLE BANK QUALIFIER FLOOR TYPES
    rm -f "$1"
    lentilpot setup "$1" "$2" "$3" "FRONT 4" "$4" 0123456789ABCDEF 0000000000000007 >made &&
        lentilpot add "$1" 941014 $ID "" F18C57209492FEB3 C71A7502021A022F 028E4C 0 "$5" yes yes >>made
}
new_bank t 003701234567 "" 120 1
sed '1s/^\(>>ESI161\)120/\1110/' "$root/samples/good.txt" >file
on "the version is too old: it is 110, the floor is 120 (and 111 to 119 are never taken). Customer \"$ID\"" t 941017 1 file
for version in 100 111 119; do
    sed "1s/^\(>>ESI161\)120/\1$version/" "$root/samples/good.txt" >file
    explained "the version is too old: it is $version, the floor is 110 (and 111 to 119 are never taken). Customer \"$ID\"" file
done
new_bank t 003701234568 X 110 1
on 'the receiver isn'"'"'t this bank: it is "003701234567" qualifier "", the bank is "003701234568" qualifier "X". Customer' t 941017 1 "$root/samples/good.txt"
new_bank t 003701234567 "" 110 1,3,16
on "this data type isn't allowed to the customer: received as type 2, allowed: 1,3,16. Customer" t 941017 2 "$root/samples/good.txt"
new_bank t 003701234567 "" 110 -
on "this data type isn't allowed to the customer: received as type 2, allowed: none. Customer" t 941017 2 "$root/samples/good.txt"
# which key is enclosed: a new one; the current one, where the previous was used
new_bank t 003701234567 "" 110 3
cp t first
on 'accepted; a new working key is enclosed: generation 1. Customer' t 941015 3 "$root/samples/payments.txt"
grep -qF 'K 1003  batch 3, lines 11 to 13, byte ' out || fail "expected the batch that asked for a key"
{ grep -qF "E 1023  outside, line 10, byte " out && grep -F 'E 1023' out | grep -qF "The file's ESI is of customer \"$ID\" qualifier \"\""; } || fail "expected whose file it is"
cp first t
lentilpot order t 941015 $ID "" $C >made
on 'K 1003  batch 3, lines 11 to 13, byte ' t 941015 3 "$root/samples/payments.txt"
grep -qF 'accepted; the current working key is enclosed, since the previous one was used: generation 1. Customer' out || fail "expected the current key"
grep -qF 'accepted; the previous working key was used, the current one is enclosed: generation 1. Customer' out || fail "expected the current key beside 1002"

# ---- lines
# the file's end settles a reply in the line of its last byte, with an LF after it or without
head -n 4 "$root/samples/good.txt" >file
explained 'E 1024  batch 1, lines 2 to 4, byte ' file
printf 'no LF' >>file
explained 'E 1024  batch 1, lines 2 to 5, byte ' file
head -n 2 "$root/samples/payments.txt" >file
explained 'E 1024  batch 1, line 2, byte ' file
head -n 1 "$root/samples/good.txt" | head -c 80 >file
explained 'E 1032  ESI, line 1, byte 80: a message is cut short: the ESI that begins in line 1' file
head -n 2 "$root/samples/good.txt" >file
explained "E 1032  batch 1, line 2, byte 245: a message is cut short: the SUO that begins in line 2. The file's ESI is of customer" file
# a SUO ends the batch before it, which began where its own SUO did; the next batch begins there
{ head -n 3 "$root/samples/good.txt"; tail -n +2 "$root/samples/good.txt"; } >file
explained 'E 1024  batch 1, lines 2 to 4, byte ' file
grep -qE '^[KE] [0-9]*  batch 2, lines 4 to 11, byte ' out || fail "expected the lines of the batch after it"
# messages in records of 80 characters: a fault is told where its message begins
damaged 8 22 1 x
explained 'E 1010  batch 1, lines 2 to 9, byte ' file
explained 'field SUOJAUSALUE of the VAR in line 7, "x"' file
damaged 3 22 1 x
explained 'field SUOJAUSALUE of the SUO in line 2, "x"' file
# a newer release: longer messages over several lines, in which the rest is passed over and what is past the stated length is not
newer=$root/samples/newer.txt
LC_ALL=C sed -e '3s/NEW FIELD/>>SUO1281/' -e '15s/~/x/g' "$newer" >file
for same in "$newer" file; do
    explained 'K 1001  ESI, line 3, byte ' "$same"
    grep -qF 'K 1001  batch 1, lines 4 to 15, byte ' out || fail "expected a newer batch to be accepted"
done
LC_ALL=C sed '5s/$/x/' "$newer" >file
explained 'E 1010  batch 1, lines 4 to 15, byte ' file
explained 'field SANOMAPITUUS of the SUO in line 4, "150": more than blanks follows the message in its last record' file
head -n 14 "$newer" >file
explained 'E 1032  batch 1, lines 4 to 14, byte ' file
explained 'a message is cut short: the VAR that begins in line 9' file
LC_ALL=C sed '9s/^\(>>VAR500\)130/\1120/' "$newer" >file
explained 'field SANOMAPITUUS of the VAR in line 9, "500"' file
# however the file is read
for file in "$newer" "$root/samples/payments.txt" "$root/samples/damaged.txt" "$root/samples/batches.txt" file; do
    cp base t
    rm -f r
    receive t "$file" r --explain >whole 2>told || [ $? -eq 1 ]
    for size in 1 2 7 160 161 162 163; do
        [ $size -gt 100 ] || [ "$(wc -c <"$file")" -lt 4000 ] || continue
        cp base t
        rm -f r
        receive t "$file" r $size --explain >out 2>told || [ $? -eq 1 ]
        cmp -s whole out || { diff whole out >&2; fail "$file: reads of $size bytes are explained otherwise"; }
    done
done

# ---- a message that isn't well formed names nobody: its fields may stand elsewhere
sed '1s/^\(.\{16\}\)/\1 /' "$root/samples/good.txt" >file
explained 'E 1010  ESI, line 1' file
! grep -qE 'Customer|stamp|qualifier' out || fail "a message with a character too many names a customer"
sed '1s/^\(.\{70\}\)/\1 /' "$root/samples/good.txt" >file
explained 'E 101' file
! grep -qE 'Customer|stamp|qualifier' out || fail "a message with a character too many names a customer"
damaged 10 102 1 x
explained "The file's ESI is of customer \"$ID\" qualifier \"\"" file
! grep -F 'E 1010' out | grep -qE '[.] Customer|stamp' || fail "a message that isn't well formed names a customer"

# ---- explain: what to tell the caller, in the words of README.md
reply_of() { # CODE: the first reply with that code, alone
    LC_ALL=C grep -a "^.\{12\}$1" r | head -n 1 >one
    lentilpot explain one >out 2>told || [ $? -eq 1 ]
    tr -s ' \n' ' ' <out >joined
}
says() { grep -qF -- "$1" joined || fail "explain: expected '$1'"; }

# the contents in the notice: what isn't shown, what isn't there, and what is told of it
notice() { # FILE NOTICE AT_HAND BY_NOTICE
    explained "$3" "$1"
    reply_of "101[01]"
    says "$2"
    says "$4"
}
printf 'H\303\204\nREST\n' >file
notice file 'MUOTOVIRHE KENTÄSSÄ SANOMATUNNUS H??' 'begin with an ESI but with "H??"' 'begin with an ESI but with "H??". Mend the sending program'
printf '\n' >file
notice file 'MUOTOVIRHE KENTÄSSÄ SANOMATUNNUS' 'begin with an ESI but with ""' "begin with an ESI but with blanks (or contents that earlier releases didn't show)."
{ head -n 1 "$root/samples/good.txt"; cat "$root/samples/good.txt"; } >file
notice file 'ARVOVIRHE KENTÄSSÄ SANOMATUNNUS >>ESI' 'field SANOMATUNNUS of the ESI in line 2, ">>ESI": an ESI stands at a file'"'"'s beginning alone' \
    "a field's value: a second ESI stands in the file, as where two files were joined. Mend"
sed '1s/$/ x/' "$root/samples/good.txt" >file
notice file 'MUOTOVIRHE KENTÄSSÄ SANOMAPITUUS 161' 'field SANOMAPITUUS of the ESI in line 1, "161": more than blanks follows the message in its last record' \
    'field SANOMAPITUUS, "161": more than blanks follows the message in its last record. Mend'
sed '1s/^\(>>ESI\)161\(.\{153\}\)/\1162\2X/' "$root/samples/good.txt" >file
notice file 'ARVOVIRHE KENTÄSSÄ SANOMAPITUUS 162' 'field SANOMAPITUUS of the ESI in line 1, "162"' "a field's value: field SANOMAPITUUS, \"162\" (a ?"
sed '1s/^\(>>ESI\)161/\1501/' "$root/samples/good.txt" >file
notice file 'ARVOVIRHE KENTÄSSÄ SANOMAPITUUS 501' 'field SANOMAPITUUS of the ESI in line 1, "501"' "a field's value: field SANOMAPITUUS, \"501\" (a ?"
sed '1s/^\(>>ESI\)161/\11 1/' "$root/samples/good.txt" >file
notice file 'MUOTOVIRHE KENTÄSSÄ SANOMAPITUUS 1 1' 'field SANOMAPITUUS of the ESI in line 1, "1 1"' "field's format: field SANOMAPITUUS, \"1 1\" (a ? may stand for"
sed '1s/^\(.\{16\}\).\{16\}/\1                /' "$root/samples/good.txt" >file
notice file 'ARVOVIRHE KENTÄSSÄ OHJELMISTO' 'field OHJELMISTO of the ESI in line 1, "                "' 'field OHJELMISTO, blanks (or'
# the SUO's fault is shown though the VAR's field is sound, and the other way round
sed '10s/^\(.\{87\}\)....../\1940230/' "$root/samples/good.txt" >file
explained 'field PÄIVÄYS of the SUO in line 10, "940230"' file
reply_of 1011
says 'ARVOVIRHE KENTÄSSÄ PÄIVÄYS 940230'
sed '13s/^\(.\{87\}\)....../\1940230/' "$root/samples/good.txt" >file
explained 'field PÄIVÄYS of the VAR in line 13, "940230"' file
reply_of 1011
says 'ARVOVIRHE KENTÄSSÄ PÄIVÄYS 940230'
# a notice that names no field of ours
LC_ALL=C sed 's/P.IV.YS 940230/NIMI    940230/' r >r2
mv r2 r
reply_of 1011
says "a field's value: field that the notice names, as shown there"
sed '1s/^\(.\{85\}\)00/\105/' "$root/samples/good.txt" >file
explained 'E 1014' file
reply_of 1014
says "make the file anew with the current key (the previous one is good for stamps up to the changeover's last day, unless it was dropped)"
sed '1s/^\(.\{85\}\)0/\14/' "$root/samples/good.txt" >file
explained 'E 1013' file
reply_of 1013
says "make the file anew with the current key"
for code in 1037 1034 1032; do
    LC_ALL=C sed "s/^\(.\{12\}\)1013/\1$code/" r >r2
    mv r2 r
    reply_of $code
    case $code in
    1037) says "no changeover was ended: none runs, or the message itself used the previous key: use the current key" ;;
    1032) says "a message is cut short. The file is damaged: send it anew; if it comes again, the message is shorter than the length that it states: mend the sending program" ;;
    *) says "64 live stamps are held, one for each accepted message: send again when stamps have become too old (on the sixth banking day after them), and put more payments into a batch" ;;
    esac
    LC_ALL=C sed "s/^\(.\{12\}\)$code/\11013/" r >r2
    mv r2 r
done
echo "explain: $(wc -l <seen) fields at fault shown with their contents"
