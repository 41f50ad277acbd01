#!/bin/sh
# The edge as a box sees it: every function of both archives called with the same known answers through the C header and through the Rust
# declarations; the header's helpers and constants; the C sample and the Rust example, which receive files alike, refuse alike and
# leave the table, the replies and the lock right wherever they are cut off.
# usage: sh tests/edge.sh     (LENTILPOT_LIB: a folder with libedge.a and libdesk_edge.a; where it isn't set the archives are made)
set -eu
[ -z "${LENTILPOT_LIB:-}" ] || LENTILPOT_LIB=$(cd "$LENTILPOT_LIB" && pwd)
cd "$(dirname "$0")/.."
root=$PWD
for tool in cc cargo; do
    command -v "$tool" >/dev/null 2>&1 || { echo "edge: '$tool' is not on the PATH." >&2; exit 2; }
done
work=$(mktemp -d)
# The folder in which files are received, in memory where it can be: hundreds of runs flush theirs.
place=$(mktemp -d /dev/shm/edge.XXXXXX 2>/dev/null || mktemp -d)
trap 'rm -rf "$work" "$place"' EXIT
place=$(cd "$place" && pwd -P)
if [ -z "${LENTILPOT_LIB:-}" ]; then
    for name in edge desk_edge; do
        sh scripts/nativelib $name >"$work/log" 2>&1 || { cat "$work/log" >&2; exit 1; }
    done
    LENTILPOT_LIB=$PWD/target/native
fi
export LENTILPOT_LIB
strict() { cc -std=c99 -Wall -Wextra -Wpedantic -Werror -O2 -Iinclude "$@"; }
fail() { echo "edge: $*" >&2; exit 1; }

# ---- the archive for the small box has no table of parities (R-4), whole or in pieces of eight bytes

awk 'BEGIN { for (b = 0; b < 256; b++) {
        ones = 0
        for (n = b; n > 0; n = int(n / 2)) ones += n % 2
        printf "%02x%s", ones % 2 ? b : b % 2 ? b - 1 : b + 1, b % 8 == 7 ? "\n" : "" } }' >"$work/parities"
{ [ "$(sed -n 1p "$work/parities")" = 0101020204040707 ] && [ "$(wc -l <"$work/parities")" -eq 32 ]; } || fail "the parities are counted wrongly"
! od -An -v -tx1 "$LENTILPOT_LIB/libedge.a" | tr -d ' \n' | grep -qF -f "$work/parities" || fail "a table of parities is in libedge.a"

# ---- the header and the Rust declarations

# Each archive by itself, then both together.
known=rust/lentilpot/tests
strict $known/known.c "$LENTILPOT_LIB/libedge.a" -o "$work/known"
strict $known/desk.c "$LENTILPOT_LIB/libdesk_edge.a" -o "$work/desk"
strict $known/build.c "$LENTILPOT_LIB/libdesk_edge.a" -o "$work/build"
"$work/known" >"$work/known.txt"
"$work/desk" $known/desk_cases.txt >"$work/desk.txt"
"$work/build" $known/build_cases.txt >"$work/build.txt"
for name in known desk build; do
    cmp "$work/$name.txt" $known/$name.txt || {
        echo "edge: the answers of $name.c (<) differ from the known ones (>):" >&2
        diff "$work/$name.txt" $known/$name.txt >&2
        exit 1
    }
done
strict tests/box.c "$LENTILPOT_LIB/libedge.a" "$LENTILPOT_LIB/libdesk_edge.a" -o "$work/box"
"$work/box" samples/payments.txt >&2 || fail "the header's helpers or constants are wrong"
strict tests/box_desk.c "$LENTILPOT_LIB/libdesk_edge.a" -o "$work/box_desk"
"$work/box_desk" >&2 || fail "the desk's calls are wrong"
strict tests/box_build.c "$LENTILPOT_LIB/libdesk_edge.a" -o "$work/box_build"
"$work/box_build" >&2 || fail "the calls that build are wrong"
if command -v c++ >/dev/null 2>&1; then
    c++ -Wall -Wextra -Wpedantic -Werror -Iinclude -fsyntax-only -x c++ include/lentilpot.h
fi

# The functions that the header declares, those that Rust declares and covers, and those of the archives, each once.
sed -n 's/^uint[0-9]*_t \(lp_[a-z_]*\)(.*/\1/p' include/lentilpot.h | LC_ALL=C sort >"$work/declared"
[ "$(wc -l <"$work/declared")" -ge 21 ] || fail "the header declares fewer than twenty-one functions"
sys="rust/lentilpot/src/sys.rs rust/lentilpot/src/sys/desk.rs rust/lentilpot/src/sys/build.rs"
# shellcheck disable=SC2086 # three names
{
    sed -n 's/^ \{8\}pub fn \(lp_[a-z_]*\)(.*/\1/p' $sys | LC_ALL=C sort >"$work/raw"
    sed -n 's/^pub fn \(lp_[a-z_]*\)(.*/\1/p' $sys | LC_ALL=C sort >"$work/covered"
}
nm -g --defined-only "$LENTILPOT_LIB/libedge.a" "$LENTILPOT_LIB/libdesk_edge.a" | awk '$2 == "T" { print $3 }' | LC_ALL=C sort >"$work/linked"
for list in raw covered linked; do
    diff "$work/declared" "$work/$list" >&2 || fail "the header's functions (<) aren't those of Rust or of the archives (>: $list)"
done

# The constants of header and Rust, one a line; a field is its name, offset and end.
cc -dM -E -x c include/lentilpot.h | sed -n 's/^#define LP_//p' | LC_ALL=C sort >"$work/header"
awk '/^(CODE|REFUSED|FINDING)_/ { print }
    /^WIDTH_/ { width[substr($1, 7)] = $2 }
    /^AT_/ { at[substr($1, 4)] = $2 }
    END { for (n in at) print "AT_" n, at[n] (n in width ? " " at[n] + width[n] : "") }' "$work/header" |
    LC_ALL=C sort >"$work/constants.c"
awk '/^pub mod/ { kind = toupper($3) }
    /pub const/ { gsub(/[:;]/, ""); sub(/\.\./, " "); print kind "_" $3, $6 ($7 == "" ? "" : " " $7) }' \
    rust/lentilpot/src/constants.rs | LC_ALL=C sort >"$work/constants.rust"
{ [ -s "$work/constants.c" ] && diff "$work/constants.c" "$work/constants.rust" >&2; } || fail "the constants of the header (<) differ from those in Rust (>)"
# Every code of the definition has a name, and ACCEPTED is in those of K.
sed -nE 's/.*(taken|refused|barely|faulty|code =) (10[0-9][0-9]).*/\1 \2/p' crates/notice/specs/Codes.antt |
    awk '{ print $NF, $1 == "taken" ? "K" : "E" }' | LC_ALL=C sort >"$work/codes"
sed -n 's/^CODE_\(.*\) \(.*\)/\2 \1/p' "$work/header" | awk '{ print $1, $2 ~ /^ACCEPTED/ ? "K" : "E" }' | LC_ALL=C sort |
    diff "$work/codes" - >&2 || fail "the definition's codes (<) differ from the header's (>)"
# So has every finding, and README.md says what to do with it; a field's name is the definition's.
sed -nE 's/.*(check|check_field|each_field|code =) (30[0-9][0-9]).*/\2/p' crates/desk/specs/Desk.antt crates/desk_form/specs/Replies.antt |
    LC_ALL=C sort -u >"$work/findings"
sed -n 's/^FINDING_.* //p' "$work/header" | LC_ALL=C sort | diff "$work/findings" - >&2 || fail "the definition's findings (<) differ from the header's (>)"
sed -nE 's/^\| (30[0-9][0-9]) \|.*/\1/p' README.md | LC_ALL=C sort -u | diff "$work/findings" - >&2 || fail "the definition's findings (<) differ from README.md's (>)"
grep -ohE 'laid \((sub)?field [0-9 ]+\) "[^"]+"' crates/message/specs/Layout.antt crates/notice/specs/Codes.antt |
    sed -E 's/.*subfield ([0-9]+) ([0-9])\) "(.*)"/\1\2 \3/; s/.*field ([0-9]+)\) "(.*)"/\10 \2/' | LC_ALL=C sort >"$work/names"
{ [ "$(wc -l <"$work/names")" -ge 25 ] && "$work/box_desk" names | LC_ALL=C sort | diff "$work/names" - >&2; } ||
    fail "the definition's names of fields (<) differ from the header's (>)"
sed -nE 's/^ +([0-9]+) => "(.*)",$/\1 \2/p' rust/lentilpot/src/desk.rs | LC_ALL=C sort | diff "$work/names" - >&2 ||
    fail "the definition's names of fields (<) differ from those in Rust (>)"
# Refusals and findings in words.
sed -nE 's/.*case LP_(REFUSED|FINDING)_([A-Z_]+): return "(.*)";/\1_\2 \3/p' include/lentilpot.h | LC_ALL=C sort >"$work/words.c"
sed -nE 's/.* (refused|finding)::([A-Z_]+) => "(.*)",/\1_\2 \3/p' rust/lentilpot/src/lib.rs rust/lentilpot/src/desk.rs |
    sed 's/^refused/REFUSED/; s/^finding/FINDING/' | LC_ALL=C sort >"$work/words.rust"
{ [ "$(wc -l <"$work/words.c")" -ge 22 ] && diff "$work/words.c" "$work/words.rust" >&2; } || fail "the words of the header (<) differ from those in Rust (>)"
version=$(sed -n 's/^VERSION "\(.*\)"$/\1/p' "$work/header")
grep -qx "version = \"$version.0\"" rust/lentilpot/Cargo.toml || fail "LP_VERSION is $version, and not the crate's version"

# The examples are without the desk, and link libedge.a alone.
(cd rust && cargo test --locked --offline --quiet -j 1 -p lentilpot --features desk && cargo build --locked --offline --quiet -j 1 -p lentilpot --examples) \
    >"$work/log" 2>&1 ||
    { cat "$work/log" >&2; exit 1; }

# ---- receiving, from C and from Rust

examples=$root/rust/target/debug/examples
strict samples/receive.c "$LENTILPOT_LIB/libedge.a" -o "$work/c"
cp "$examples/receive" "$work/rust"
cd "$place"
"$examples/set_up" old
cp old kept
{ ! "$examples/set_up" old 2>told && cmp -s old kept; } || fail "set_up replaces a table"
case $(ls -l old) in -rw-------*) ;; *) fail "set_up makes a table that others can read" ;; esac
rm kept told
payments=$root/samples/payments.txt
head -n 6 "$payments" >accepted
: >empty
cp old later
printf '%s\n' 'K 1001' 'K 1001' 'E 1019' 'E 1023' 'K 1003' >listing
at="941015 091500 3 0000000000000007"

# Runs the program in a folder of its own: t is the table, out and err what it says.
run() { # STATUS WORDS..
    expected=$1 status=0
    shift
    timeout 5 "$work/$side" "$@" >out 2>err </dev/null || status=$?
    [ "$status" -eq "$expected" ] || fail "$side: receive $*: expected the status $expected, got $status: $(cat err)"
}
fresh() {
    rm -rf "${place:?}/in" && mkdir "$place/in" && cd "$place/in"
    cp ../old t
}
# Trouble or a refusal: told, nothing listed, the table as it was, and what is in the folder too.
none() { # STATUS TEXT WORDS..
    expected=$1 text=$2
    shift 2
    ls -lA --time-style=+ 2>/dev/null >../before || ls -A >../before
    run "$expected" "$@"
    mv out err ..
    grep -qF -- "$text" ../err || fail "$side: receive $*: expected '$text', got: $(cat ../err)"
    [ ! -s ../out ] || fail "$side: receive $*: something was listed"
    cmp -s t ../old || fail "$side: receive $*: the table was changed"
    ls -lA --time-style=+ 2>/dev/null >../after || ls -A >../after
    diff ../before ../after >&2 || fail "$side: receive $*: something was left over"
}
# Types what was told, in another folder.
typed() {
    command=$(sed -n 's/.*To mend: //p' ../err)
    { [ -n "$command" ] && (cd / && eval "$command"); } || fail "$side: the mend '$command' failed"
}
mode() { stat -c '%A %u %g' "$1"; }

served() {
    fresh
    # shellcheck disable=SC2086 # $at is four words
    {
        run 1 t "$payments" $at r
        { cmp out ../listing && [ "$(LC_ALL=C awk '{ print length($0) }' r | tr '\n' ' ')" = "237 317 317 317 317 " ]; } ||
            fail "$side: receiving samples/payments.txt: $(cat out)"
        [ "$(ls -A)" = "$(printf '%s\n' err out r t)" ] || fail "$side: something was left over: $(ls -A)"
        cp t "../$side.table" && cp r "../$side.replies"
        run 1 t "$payments" $at again
        [ "$(cat out)" = "E 1018" ] || fail "$side: a stamp was accepted twice"
        cp ../old t
        run 0 t ../accepted $at accepted
        [ "$(cat out)" = "$(printf 'K 1001\nK 1001')" ] || fail "$side: two K were expected"
        # An empty file has no reply; the day is saved all the same.
        run 0 t ../empty 941016 091500 3 0000000000000007 none
        { [ ! -s out ] && [ -f none ] && [ ! -s none ]; } || fail "$side: an empty file has no reply"
        grep -qF "no message stood in it, so there is no reply; the table's day is now 941016" err || fail "$side: an empty file isn't told"
        run 1 t ../empty $at refused
        { grep -qF "refused: 941015 is before the table's day 941016" err && [ ! -e refused ]; } || fail "$side: a day before the table's was taken"
        # a day far past the table's is asked for with a word of its own
        cp t ../held
        run 2 t ../empty 941117 091500 3 0000000000000007 far
        { grep -qF "more than 31 days after the table's day" err && [ ! -e far ] && cmp -s t ../held; } || fail "$side: a far day was taken"
        run 0 t ../empty 941116 091500 3 0000000000000007 near
        run 0 t ../empty 960201 091500 3 0000000000000007 far later
        run 2 t ../empty 960304 091500 3 0000000000000007 leap
        run 0 t ../empty 960303 091500 3 0000000000000007 leap
    }
}

modes() {
    for bits in 600 640 644; do
        fresh
        chmod $bits t
        [ "$(id -u)" -ne 0 ] || chown 65534:65534 t
        before=$(mode t)
        # shellcheck disable=SC2086 # $at is four words
        (umask 0 && run 1 t "$payments" $at r)
        [ "$(mode t)" = "$before" ] || fail "$side: the table was $before and is $(mode t)"
        case $(mode r) in -rw-------*) ;; *) fail "$side: the replies are $(mode r)" ;; esac
    done
}

# Names that must not be taken: the table's, the lock's, the replies'.
# shellcheck disable=SC2086 # $at is four words
names() {
    fresh
    echo $$ >t.lock
    none 2 "the table is in use by process $$: try again" t "$payments" $at r
    printf '%010d AAAAAAAAAAAAAAAA\n' $$ >t.lock
    none 2 "a lock that this program did not write" t "$payments" $at r
    : >t.lock
    none 2 "To mend: rm '$place/in/t.lock'" t "$payments" $at r
    typed
    : >t.new
    none 2 "whose lock was removed. To mend: rm '$place/in/t.new'" t "$payments" $at r
    typed
    [ "$(ls -A)" = t ] || fail "$side: the mends left something: $(ls -A)"
    echo kept >r.new
    none 2 "of another run, perhaps on another table" t "$payments" $at r
    rm r.new
    echo kept >file && ln -s file link && ln -s nowhere dangling && mkfifo fifo && mkdir folder
    for r in file link dangling fifo folder t t.lock t.new; do none 2 "never replaced" t "$payments" $at "$r"; done
    [ "$(cat file)" = kept ] || fail "$side: replies were replaced"
    none 2 "expected" t "$payments" $at ""
    none 2 "control characters" t "$payments" $at "$(printf 'a\nb')"
    none 2 "at most 244 bytes" t "$payments" $at "$(printf '%0245d' 0)"
    none 2 "No such file" t "$payments" $at none/r
    none 2 "No such file" t none $at r
    none 2 "" t folder $at r
    ln -s t symbolic
    for t in symbolic fifo folder; do none 2 "and no link" $t "$payments" $at r; done
    ln t second
    for t in t second; do none 2 "and no link" $t "$payments" $at r; done
    rm second
    head -c 49151 t >short
    cat t file >long
    for t in short long; do none 2 "expected a table, 49,152 bytes" $t "$payments" $at r; done
    none 2 "No such file" missing "$payments" $at r
    none 2 "expected" "" "$payments" $at r
}

words() {
    fresh
    for date in "" 94101 9410155 19941015 94101x +41015 " 41015" 0x1015; do
        none 2 "expected DATE, 6 digits" t "$payments" "$date" 091500 3 0000000000000007 r
    done
    for time in "" 0915 91500 0915000 09:15 -91500; do
        none 2 "expected TIME, 6 digits" t "$payments" 941015 "$time" 3 0000000000000007 r
    done
    for type in "" x 3x 003 -1 +3; do none 2 "expected TYPE" t "$payments" 941015 091500 "$type" 0000000000000007 r; done
    for clock in "" 7 000000000000007 00000000000000007 000000000000000G 000000000000000a 0x00000000000007 -000000000000007; do
        none 2 "expected CLOCK, 16 hex digits" t "$payments" 941015 091500 3 "$clock" r
    done
    none 2 "receive TABLE FILE DATE" t "$payments" 941015 091500 3 0000000000000007
    none 2 "receive TABLE FILE DATE" t "$payments" 941015 091500 3 0000000000000007 r more
    # These have the form, and the call refuses them.
    none 1 "941301 isn't a real date; the table's day is 941015" t "$payments" 941301 091500 3 0000000000000007 r
    none 1 "950229 isn't a real date; the table's day is 941015" t "$payments" 950229 091500 3 0000000000000007 r
    none 1 "246060 isn't a real time; the table's day is 941015" t "$payments" 941015 246060 3 0000000000000007 r
    none 1 "outside its limits" t "$payments" 941015 091500 17 0000000000000007 r
    head -c 49152 /dev/zero >t && cp t ../old
    none 1 "no table is written" t "$payments" 941015 091500 3 0000000000000007 r
    cp ../later ../old
}

# Where the listing can't be written the table and the replies stand all the same.
unlisted() {
    { [ "$status" -eq 2 ] && grep -qF "stand in REPLIES" err && cmp -s t "../$side.table" && cmp -s r "../$side.replies" &&
        [ ! -e t.lock ]; } || fail "$side: $1: status $status, $(cat err)"
}
# shellcheck disable=SC2086 # $at is four words
outputs() {
    if [ -c /dev/full ]; then
        fresh
        status=0
        timeout 5 "$work/$side" t "$payments" $at r >/dev/full 2>err || status=$?
        unlisted "standard output is full"
    fi
    fresh
    { sleep 0.1; status=0; timeout 5 "$work/$side" t "$payments" $at r 2>err || status=$?; echo "$status" >status; } | :
    status=$(cat status)
    unlisted "standard output's reader left"
    [ "$side" = c ] || return 0 # Rust opens /dev/null for a stream that is closed
    for closed in '<&-' '>&-' '2>&-'; do
        fresh
        status=0
        eval "timeout 5 $work/c t '$payments' $at r $closed" >../told 2>&1 || status=$?
        { [ "$status" -eq 2 ] && cmp -s t ../old && [ "$(ls -A)" = t ]; } || fail "c: with $closed: status $status, $(ls -A)"
    done
}

for side in c rust; do
    served
    modes
    names
    words
    outputs
done
cd "$place"
{ cmp c.table rust.table && cmp c.replies rust.replies; } || fail "C and Rust differ"

# ---- the order of writes, and every moment at which it can be cut off

if ! command -v strace >/dev/null 2>&1 || ! strace -o /dev/null true 2>/dev/null; then
    echo "edge: header, Rust declarations, C sample and Rust example agree; the order of writes was not tested: it needs strace"
    exit 0
fi
calls="open openat write fsync ftruncate fchown fchmod rename renameat renameat2 unlink unlinkat"

# What reaches the disk and the listing, in its order: the table in one folder, the replies in another.
cat >order <<'END'
make bank/t.lock
make bank/t.new
flush bank
make out/r.new
flush bank/t.lock
flush out/r.new
flush out
flush bank/t.new
name bank/t
flush bank
make out/r
name out/r
flush out
remove bank/t.lock
list
END
order() {
    fresh
    mkdir bank out && mv t bank/t
    # shellcheck disable=SC2086 # $at is four words
    strace -y -o ../trace -e "trace=/^($(echo $calls | tr ' ' '|'))\$" "$work/$side" bank/t "$payments" $at out/r >../listed || true
    cmp ../listed ../listing
    sed -n "s|$place/in/||g
        s/^open.*\"\(.*\)\", .*O_CREAT|O_EXCL.*/make \1/p
        s/^fsync([0-9]*<\([^>]*\)>.*/flush \1/p
        s/^rename.*\"\(.*\)\".*= 0/name \1/p
        s/^unlink.*\"\(.*\)\".*= 0/remove \1/p
        s/^write(1<.*/list/p" ../trace | uniq | diff ../order - >&2 || fail "$side: the order of writes (>) isn't the right one (<)"
}

# The mode goes with the owner: without it the bits would be another group's.
disowned() {
    fresh
    chmod 640 t
    # shellcheck disable=SC2086 # $at is four words
    strace -qq -o ../trace -e trace=fchown -e inject=fchown:error=EPERM "$work/$side" t "$payments" $at r >out || true
    cmp out ../listing
    case $(mode t) in -rw-------*) ;; *) fail "$side: the owner wasn't kept, and the mode is $(mode t)" ;; esac
}

# What must hold of the folder wherever the run was cut off. The table is old or new, whole, and what is left tells which.
stands() {
    if cmp -s t "../$side.table"; then is=new; elif cmp -s t ../old; then is=old; else fail "$1: the table isn't whole"; fi
    [ ! -e t.new ] || [ $is = old ] || fail "$1: t.new is there and the table was changed"
    if [ $is = old ]; then
        { [ ! -e r ] && [ ! -s out ]; } || fail "$1: replies to a table that wasn't saved"
        [ -e t.new ] || [ ! -e r.new ] || fail "$1: without t.new r.new says that the table was saved"
        [ -e t.new ] || [ ! -e t.lock ] || [ "$(wc -l <t.lock)" -lt 2 ] || fail "$1: the lock says that the table was saved"
    else
        cmp -s r "../$side.replies" || cmp -s r.new "../$side.replies" || fail "$1: the replies are lost"
        [ ! -s out ] || cmp -s r "../$side.replies" || fail "$1: a reply was told before the replies had their name"
    fi
}
# The program on the same table finds a lock that isn't its own, and changes nothing; once for each state.
refused_by_program() {
    state="$side $is $(echo ./*) $(wc -l <t.lock)"
    [ -x "$program" ] && ! grep -qxF "$state" ../states || return 0
    echo "$state" >>../states
    cp t ../t.before
    got=0
    sh "$root/scripts/runbin" "$program" order t 941015 99910000011111111 "" 0000000000000001 >../said 2>../told || got=$?
    { [ $got -eq 2 ] && [ ! -s ../said ] && cmp -s t ../t.before; } || fail "$1: lentilpot went on over the lock"
    grep -qE 'a lock that this program did not write|a run that has just begun' ../told || fail "$1: lentilpot says: $(cat ../told)"
}
# What the next run tells to type, in another folder; then the file once more. Its stamps are accepted exactly if they weren't before.
mend() {
    lines=0
    [ ! -e t.lock ] || { lines=$(wc -l <t.lock) && refused_by_program "$1"; }
    while [ -e t.lock ] || [ -e t.new ]; do
        rm -f out err
        # shellcheck disable=SC2086 # $at is four words
        run 2 t "$payments" $at mended
        mv out err ..
        typed
    done
    # replies that were begun, and not named in the lock yet, are nobody's
    [ $is = new ] || [ ! -e r.new ] || [ "$lines" -ge 2 ] || { nobodys=$((nobodys + 1)); rm r.new; }
    { [ ! -e r.new ] && [ ! -e mended ]; } || fail "$1: the mend left something: $(ls -A)"
    [ $is = old ] || cmp -s r "../$side.replies" || fail "$1: the mend lost the replies"
    # shellcheck disable=SC2086 # $at is four words
    run 1 t "$payments" $at again
    if [ $is = new ]; then echo 'E 1018' >../want; else cp ../listing ../want; fi
    { cmp -s out ../want && cmp -s t "../$side.table"; } || fail "$1: received again: $(cat out)"
}
# A call failed: it is told, or didn't matter; and nothing is left over of a run that changed nothing.
told() {
    case $status in
    1) { cmp -s out ../listing && [ "$(ls -A)" = "$(printf '%s\n' err out r t)" ]; } || fail "$1: status 1, and not all was done" ;;
    2 | 127) [ -s err ] || fail "$1: it isn't told" ;;
    *) fail "$1: status $status" ;;
    esac
    [ $is = new ] || [ "$(ls -A)" = "$(printf '%s\n' err out t)" ] || fail "$1: left over: $(ls -A)"
}
# Each call in turn is the last one (killed), or fails and the run goes on to tell it.
cuts() { # HOW FILE
    for call in $calls; do
        n=0
        while :; do
            n=$((n + 1)) status=0
            fresh && rm -f ../trace
            # In braces, for bash says in between that a process was killed.
            # shellcheck disable=SC2086 # $at is four words
            {
                strace -qq -o ../trace -e "trace=$call" -e "inject=$call:$1:when=$n" "$work/$side" t "$2" $at r >out 2>err || status=$?
            } 2>/dev/null
            grep -qsE 'INJECTED|killed' ../trace || break
            stands "$side: $call $n, $1"
            [ "$1" = signal=KILL ] || told "$side: $call $n, $1"
            mend "$side: $call $n, $1"
            moments=$((moments + 1))
            eval "$is=\$(($is + 1))"
        done
    done
}

moments=0 old=0 new=0 nobodys=0
program=${PROGRAM:-$root/target/program/lentilpot}
: >states
for side in c rust; do
    order
    disowned
    cuts signal=KILL "$payments"
    cuts error=EIO "$payments"
    # A folder can't be read: the run gives up, and is cut off in that.
    cuts signal=KILL ..
done
{ [ $old -gt 0 ] && [ $new -gt 0 ]; } || fail "every moment gave the same table"
echo "edge: header, Rust declarations, C sample and Rust example agree; cut off or failing at $moments calls, $old left the old table and $new the new one with its replies"
[ -x "$program" ] || echo "edge: lentilpot isn't built, so that what it says of their locks was not tested"
