#!/bin/bash
# The offsets, widths and names of docs/FORMAT.md are those that the layouts in the definitions give: each line of a layout is a field, with
# its name as a comment.
# usage: bash tests/format.sh
set -eu
root=$(cd "$(dirname "$0")/.." && pwd -P)
work=$(mktemp -d)
trap 'rm -rf "$work"' EXIT
cd "$work"
fail() {
    echo "tests/format: $*" >&2
    exit 1
}

# The rows of a layout: offset|width|name, which ends at ':' or ','. A record `within` another and what `perhaps` holds are given field by field, any other as one row.
# Where records of a number that varies come before, the offset is '?'.
rows() { # SHAPE FILE...
    LC_ALL=C awk -v wanted="$1" '
    function bad(why) { print "layout " wanted ": " why > "/dev/stderr"; failed = 1; exit 1 }
    function bare(t) { while (t ~ /^\(.*\)$/) t = substr(t, 2, length(t) - 2); return t }
    function wide(t,    p, n, i, sum) {
        t = bare(t)
        n = split(t, p, " ")
        if (p[1] == "number" || p[1] == "text") return p[2]
        if (p[1] == "flag" || p[1] == "named") return 1
        if (p[1] == "numbers") return p[2] * p[3]
        if (p[1] == "perhaps") return 1 + wide(substr(t, 9))
        if (p[1] == "within") return wide(substr(t, 8))
        if (n != 1 || !(t in fields)) bad("what is " t "?")
        sum = 0
        for (i = 1; i <= fields[t]; i++) sum += wide(term[t, i])
        return sum
    }
    function row(w, name) { sub(/[:,].*/, "", name); print at "|" w "|" name }
    function on(w) { if (at != "?") at += w }
    function show(shape,    i, t, p) {
        if (!(shape in fields)) bad("what is " shape "?")
        for (i = 1; i <= fields[shape]; i++) {
            t = term[shape, i]
            split(t, p, " ")
            if (p[1] == "within") show(bare(substr(t, 8)))
            else if (p[1] == "perhaps") { row(1, name[shape, i]); on(1); show(bare(substr(t, 9))) }
            else if (p[1] == "numbers") { row(p[3] " × " p[2], name[shape, i]); on(p[2] * p[3]) }
            else if (p[1] == "many") { sub(/^many [^ ]+ /, "", t); row(wide(t) " each", name[shape, i]); at = "?" }
            else { row(wide(t), name[shape, i]); on(wide(t)) }
        }
    }
    /^[a-z][A-Za-z_]* *([a-z]+ )*=$/ { shape = $1; next }
    /^    .*  -- / && shape != "" {
        t = $0
        sub(/^ +/, "", t)
        n = index(t, "  -- ")
        k = ++fields[shape]
        name[shape, k] = substr(t, n + 5)
        t = substr(t, 1, n - 1)
        sub(/ ⊗$/, "", t)
        term[shape, k] = t
        next
    }
    { shape = "" }
    END { if (!failed) { at = 0; show(wanted) } }' "${@:2}"
}

# The rows of the page's n-th table of bytes; a name ends at ':' or ','.
page() { # N FILE
    LC_ALL=C awk -v n="$1" -F ' *[|] *' '
    /^\| offset \| width \| what / { k++; next }
    !/^\|/ { if (k >= n) exit; next }
    k == n && $2 != "---" && !/^\|---/ {
        sub(/[:,].*/, "", $4)
        if ($2 !~ /^[0-9]+$/) $2 = "?"
        print $2 "|" $3 "|" $4
    }' "$2"
}

same() { # N SHAPE PAGE FILE...
    rows "$2" "${@:4}" >layout || return 1
    page "$1" "$3" >said
    [ "$(wc -l <layout)" -ge 6 ] || { echo "layout $2: fewer than six rows" >&2; return 1; }
    diff layout said
}

format=$root/docs/FORMAT.md
customer=$root/crates/customer_bytes/specs/Layout.antt
table=$root/crates/table/specs/Written.antt
session=$root/crates/session_bytes/specs/Session.antt
desk=$root/crates/desk_bytes/specs/Layout.antt
batch=$root/crates/build_bytes/specs/Layout.antt
same 1 table_shape "$format" "$table" "$customer" || fail "docs/FORMAT.md, a table: '<' is what the layout gives"
same 2 customer_shape "$format" "$customer" || fail "docs/FORMAT.md, a customer: '<' is what the layout gives"
same 3 pair_shape "$format" "$customer" || fail "docs/FORMAT.md, the keys of one kind: '<' is what the layout gives"
same 4 session_shape "$format" "$session" || fail "docs/FORMAT.md, a session: '<' is what the layout gives"
same 5 held_shape "$format" "$desk" || fail "docs/FORMAT.md, a desk: '<' is what the layout gives"
same 6 sent_shape "$format" "$desk" || fail "docs/FORMAT.md, what was sent: '<' is what the layout gives"
same 7 batch_shape "$format" "$batch" || fail "docs/FORMAT.md, a batch: '<' is what the layout gives"

# A page or a layout that differs is told.
told() { # SED FILE N SHAPE
    sed "$1" "$2" >edited
    cmp -s edited "$2" && fail "the edit '$1' changes nothing"
    case $4 in
    session_shape) layouts=("$session") ;;
    held_shape | sent_shape) layouts=("$desk") ;;
    batch_shape) layouts=("$batch") ;;
    *) layouts=("$table" "$customer") ;;
    esac
    at=$format
    [ "$2" != "$format" ] || at=edited
    for i in "${!layouts[@]}"; do [ "${layouts[i]}" != "$2" ] || layouts[i]=edited; done
    ! same "$3" "$4" "$at" "${layouts[@]}" >out 2>&1 || fail "${2##*/} after '$1' was taken"
}
told 's/^| 84 | 1 |/| 85 | 1 |/' "$format" 2 customer_shape
told 's/^| 20 | 4 | customer offset/| 20 | 4 | holiday offset/' "$format" 1 table_shape
told '/^| 28 | 1 | leave/d' "$format" 2 customer_shape
told 's/number 4  -- last day/number 8  -- last day/' "$customer" 2 customer_shape
told 's/text 16 ⊗/text 17 ⊗/' "$customer" 1 table_shape
told 's/flag ⊗  -- leave/number 2 ⊗  -- leave/' "$customer" 2 customer_shape
told 's/^| 229 | 1 |/| 228 | 1 |/' "$format" 4 session_shape
told 's/number 4 ⊗  -- opening.kind/number 5 ⊗  -- opening.kind/' "$session" 4 session_shape
told 's/  -- ended/  -- told/' "$session" 4 session_shape
told 's/perhaps once_shape/once_shape/' "$session" 4 session_shape
told 's/^| 78 | 1 |/| 79 | 1 |/' "$format" 5 held_shape
told 's/number 8  -- key/number 4  -- key/' "$desk" 5 held_shape
told 's/perhaps numbered_shape/numbered_shape/' "$desk" 5 held_shape
told 's/  -- the bank.s/  -- the branch/' "$desk" 5 held_shape
told '/^| 67 | 1 | field 13/d' "$format" 6 sent_shape
told 's/text 15 ⊗/text 14 ⊗/' "$desk" 6 sent_shape
told 's/^| 152 | 8 |/| 151 | 8 |/' "$format" 7 batch_shape
told '/^| 136 | 8 | working key/d' "$format" 7 batch_shape
told 's/text 128 ⊗/text 161 ⊗/' "$batch" 7 batch_shape
told 's/  -- one-time key/  -- new key/' "$batch" 7 batch_shape
echo "tests/format: ok"
