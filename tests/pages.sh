#!/bin/bash
# The lists of commands, docs/commands and docs/commands-bureau, and what is made from them: the help, the man page and the completion are what scripts/pages makes; the man page
# gives no warning; the completion completes; README.md lists the same commands; the program prints the help that was made.
# usage: bash tests/pages.sh     (PROGRAM and BUREAU: the programs, those of target/program where they aren't set)
set -eu
root=$(cd "$(dirname "$0")/.." && pwd -P)
program=${PROGRAM:-$root/target/program/lentilpot}
bureau_program=${BUREAU:-$root/target/program/bureau}
. "$root/samples/bank.sh"
. "$root/samples/desk.sh"
work=$(mktemp -d)
trap 'rm -rf "$work"' EXIT
cd "$work"
help=$root/crates/cli_help/src/lib.rt
page=$root/docs/lentilpot.1
fail() {
    echo "tests/pages: $*" >&2
    exit 1
}

# ---- what is made

sh "$root/scripts/pages" made
for file in crates/cli_help/src/lib.rt docs/lentilpot.1 docs/lentilpot.bash crates/bureau_help/src/lib.rt docs/bureau.1 docs/bureau.bash; do
    cmp -s "made/$file" "$root/$file" || {
        diff "$root/$file" "made/$file" >&2 || true
        fail "$file isn't what scripts/pages makes from docs/commands and docs/commands-bureau: run 'sh scripts/pages'"
    }
done
sed -n 's/^command //p' "$root/docs/commands" >commands
names=$(sed 's/ .*//' commands)
count=$(wc -l <commands)
[ "$count" -ge 8 ] || fail "docs/commands: expected eight commands or more"

# A list that isn't as it should be is refused, and nothing is made.
refused() { # TEXT SED
    rm -rf other
    mkdir -p other/scripts other/docs
    cp "$root/scripts/pages" other/scripts/
    cp "$root/docs/commands-bureau" other/docs/
    sed "$2" "$root/docs/commands" >other/docs/commands
    cmp -s other/docs/commands "$root/docs/commands" && fail "the edit '$2' changes nothing"
    if sh other/scripts/pages >out 2>err; then fail "scripts/pages took a list after '$2'"; fi
    grep -qF -- "$1" err || { cat err >&2; fail "scripts/pages after '$2': expected to be told '$1'"; }
    { [ ! -e other/docs/lentilpot.1 ] && [ ! -e other/crates ]; } || fail "scripts/pages made something after '$2'"
}
refused "the list has no word TABEL" 's/^command show TABLE/command show TABEL/'
refused "word READ: no command has it" 's/^\(command receive.*\) \[READ\]/\1/'
refused "word CLOCK: expected repeat" '/^word CLOCK/,/^$/{/^    repeat/,/^    fill/{/fill/!d;}}'
refused "the list has no option --late" 's/\[--later\]/[--late]/'
refused "word has no forms" 's/^    form /    forms/'
refused "longer than 110" 's/^    says    adds a customer/& aaaaaaaaaaaaaaaaaaaaaaaaaaaaaaaaaaaaaaaaaaaaaaaaaaaaaaaaaaaaaaaaaaaaaaaaaaaaa/'

# What a function of help.rt says: its n-th text.
text_of() { # FUNCTION N
    LC_ALL=C awk -v wanted="$1" -v n="$2" '
    /^pub fn / { at = $3; sub(/[(<].*/, "", at); i = 0 }
    {
        k = 1
        if (!open && at == wanted && (k = index($0, "b\"") + 2) > 2) { open = 1; i++ }
        for (; open && k <= length($0); k++) {
            c = substr($0, k, 1)
            if (c == "\"") open = 0
            else if (c == "\\" && substr($0, ++k, 1) == "n") c = "\n"
            else if (c == "\\") c = substr($0, k, 1)
            if (open && i == n) printf "%s", c
        }
        if (open && i == n) print ""
    }' "$help"
}
# A text with one blank between its words.
squeezed() { tr -s ' \n' ' ' <"$1"; }
text_of whole 1 >all
i=0
while read -r line; do
    i=$((i + 1))
    text_of of $i >"of.$i"
    # Each command with its words: in the whole help, in its own, in the line that says what was expected, on the page and in README.md.
    squeezed all | grep -qF -- " $line " || fail "help.rt: the whole help has no '$line'"
    squeezed "of.$i" | grep -qF -- "usage: lentilpot $line " || fail "help.rt: the help of command $i doesn't begin with '$line'"
    [ "$(text_of words_of $i)" = "$line" ] || fail "help.rt: words_of $i isn't '$line'"
    sed 's/\\f.//g; s/\\-/-/g' "$page" | grep -qxF -- "$line" || fail "docs/lentilpot.1 has no '$line'"
    squeezed "$root/README.md" | grep -qF -- " lentilpot $line " || fail "README.md has no 'lentilpot $line'"
done <commands
# The customer's program: each command with its words on its page and in README.md, and what the program prints is what was made.
sed -n 's/^command //p' "$root/docs/commands-bureau" >bureau.commands
[ "$(wc -l <bureau.commands)" -ge 6 ] || fail "docs/commands-bureau: expected six commands or more"
while read -r line; do
    sed 's/\\f.//g; s/\\-/-/g' "$root/docs/bureau.1" | grep -qxF -- "$line" || fail "docs/bureau.1 has no '$line'"
    squeezed "$root/README.md" | grep -qF -- " bureau $line " || fail "README.md has no 'bureau $line'"
done <bureau.commands
# What a person would otherwise find out too late: in the help of the command and on the page.
sed 's/\\f.//g; s/\\-/-/g; s/\\(aq/'"'"'/g; s/\\&//g; s/\\ / /g' "$page" | tr -s ' \n' ' ' >joined
told_in() { # NAME TEXT
    i=$(printf '%s\n' "$names" | grep -nx "$1" | sed 's/:.*//')
    squeezed "of.$i" | grep -qF -- "$2" || fail "the help of $1 doesn't say '$2'"
    grep -qF -- "$2" joined || fail "docs/lentilpot.1 doesn't say '$2'"
}
told_in receive "Where the file begins with an ESI the first is about it"
told_in receive "On a terminal the megabytes that were read are shown"
told_in receive "Write it down beside the command: to run the commands again on a copy of the table takes the same values."
told_in receive "It is made with the mode that your umask gives."
told_in receive "What is typed at '-' is seen on the screen, unless 'stty -echo' comes before and 'stty echo' after."
told_in setup "What is typed at '-' is seen on the screen"
told_in show "'(past)' after a changeover: its last day is before the table's day"
told_in show "'n of 64 held': so many stamps are not too old on the table's day"
told_in key "those from before DATE too; for later ones it isn't (E 1013)"
told_in order "those from before DATE too; for later ones it isn't (E 1014)"
for text in "standard output is empty, unless a listing broke off in it" "install target/program/lentilpot /usr/local/bin"; do
    grep -qF -- "$text" joined || fail "docs/lentilpot.1 doesn't say '$text'"
done
[ "$(wc -l <all)" -le 60 ] || fail "the whole help has more than 60 lines"
[ -z "$(awk 'length > 110' all)" ] || fail "a line of the whole help is longer than 110"

# ---- the man page

for heading in NAME SYNOPSIS DESCRIPTION COMMANDS WORDS OPTIONS "EXIT STATUS" FILES EXAMPLES "SEE ALSO"; do
    grep -qx "\.SH $heading" "$page" || fail "docs/lentilpot.1 has no section $heading"
done
for shown_page in "$page" "$root/docs/bureau.1"; do
    if command -v groff >/dev/null 2>&1; then
        for device in ascii utf8; do
            groff -man -ww -T$device "$shown_page" >shown 2>warnings || fail "groff can't take $shown_page"
            [ ! -s warnings ] || { cat warnings >&2; fail "groff warns of $shown_page"; }
            [ -s shown ] || fail "groff shows nothing of $shown_page"
        done
    fi
    if command -v mandoc >/dev/null 2>&1; then
        mandoc -Tlint -Wwarning "$shown_page" >warnings 2>&1 || true
        [ ! -s warnings ] || { cat warnings >&2; fail "mandoc warns of $shown_page"; }
    fi
done

# ---- the completion

. "$root/docs/lentilpot.bash"
by=$(complete -p lentilpot | sed 's/.*-F \([^ ]*\).*/\1/')
mkdir files files/folder
cd files
touch table "two words"
# What completes the last of the words; bash itself cuts a word at some marks, here at blanks alone.
completes() { # EXPECTED WORDS..
    expected=$1
    shift
    COMP_WORDS=("$@") COMP_LINE="$*" COMP_CWORD=$(($# - 1))
    COMP_POINT=${#COMP_LINE}
    $by || true
    got=$(printf '%s\n' "${COMPREPLY[@]}" | LC_ALL=C sort | tr '\n' ' ')
    [ "$got" = "$expected " ] || fail "completion of '$*': expected '$expected', got '$got'"
}
completes receive lentilpot r
completes "$(echo "$names" | LC_ALL=C sort | tr '\n' ' ' | sed 's/ $//')" lentilpot ""
completes "--help --version -h" lentilpot -
completes "--explain --help --later" lentilpot receive --
completes "--help --later" lentilpot add t 941017 --
completes "--help" lentilpot show t --
completes "110 120" lentilpot setup t B '""' S ""
completes 120 lentilpot setup t B '""' S 12
completes "no yes" lentilpot add t 941017 A '""' P1 P2 C 0 1 ""
completes yes lentilpot add t 941017 A '""' P1 P2 C 0 1 no y
completes yes lentilpot add --later t 941017 A '""' P1 P2 C 0 1 no y
completes "" lentilpot receive t 941017 ""
completes table lentilpot receive ta
completes "folder table two words" lentilpot receive t 941017 091500 1 C ""
completes "two words" lentilpot setup t B '""' S 110 K V tw
completes table lentilpot explain ta
completes explain lentilpot help e
completes @table lentilpot order t 941017 A '""' @ta
completes "@two\\ words" lentilpot order t 941017 A '""' @tw
completes "" lentilpot order t 941017 A '""' ta
completes "" lentilpot order -- --later
# A word that bash has cut at its mark.
COMP_WORDS=(lentilpot order t 941017 A : B '""' @ ta) COMP_LINE='lentilpot order t 941017 A:B "" @ta' COMP_CWORD=9 COMP_POINT=37
$by || true
[ "${COMPREPLY[*]}" = @table ] || fail "completion of a word that was cut: got '${COMPREPLY[*]}'"
. "$root/docs/bureau.bash"
by=$(complete -p bureau | sed 's/.*-F \([^ ]*\).*/\1/')
completes "make" bureau m
completes "--area-a --ask --crlf --end --help" bureau make --
completes "SKE SKH" bureau make d 941017 080000 C ""
completes "folder table two words" bureau make d 941017 080000 C SKH f ""
completes "table" bureau make d 941017 080000 C SKH f one two three ta
completes "@table" bureau key d @ta
completes "" bureau check d table 1 ""
cd ..
echo "pages: help, man page and completion of $count commands are what the list says"

# ---- the program

[ -x "$program" ] || fail "$program: expected the program"
# A call must print the text, with status 0 and nothing on standard error.
prints() { # FILE WORDS..
    file=$1
    shift
    status=0
    $asked "$@" >out 2>err </dev/null || status=$?
    { [ $status -eq 0 ] && [ ! -s err ] && cmp -s "$file" out; } || {
        diff "$file" out >&2 || true
        cat err >&2
        fail "$asked $*: expected what help.rt holds, and status 0 (it was $status)"
    }
}
asked=lentilpot
prints all help
prints all --help
prints all -h
i=0
for name in $names; do
    i=$((i + 1))
    prints "of.$i" "$name" --help
    prints "of.$i" help "$name"
done
text_of version 1 >number
[ "$(cat number)" = "lentilpot $(sed -n 's/^version //p' "$root/docs/commands")" ] || fail "help.rt: version isn't that of docs/commands"
prints number --version
# The library's version is the program's, where it tells one.
library=$(sed -n 's/^#define LP_VERSION  *"\{0,1\}\([0-9][0-9.]*\)"\{0,1\}.*/\1/p' "$root/include/lentilpot.h")
[ -z "$library" ] || [ "lentilpot $library" = "$(cat number)" ] || fail "include/lentilpot.h: LP_VERSION is $library, and the program says '$(cat number)'"
echo "pages: the program prints the help of $count commands as it was made"

[ -x "$bureau_program" ] || fail "$bureau_program: expected the program"
asked=bureau
help=$root/crates/bureau_help/src/lib.rt
text_of whole 1 >all
prints all help
prints all --help
i=0
while read -r line; do
    i=$((i + 1))
    text_of of $i >"of.$i"
    prints "of.$i" "${line%% *}" --help
    [ "$(text_of words_of $i)" = "$line" ] || fail "bureau_help: words_of $i isn't '$line'"
done <bureau.commands
text_of version 1 >number
[ "$(cat number)" = "bureau $(sed -n 's/^version //p' "$root/docs/commands")" ] || fail "bureau_help: its version isn't that of docs/commands"
prints number --version
echo "pages: bureau prints the help of $i commands as it was made"
