# shellcheck shell=sh
# Sourced by samples/run and tests/: the program and the sample bank. Needs: root (the repository), program (its path).
: "${root:?}" "${program:?}"
lentilpot() { sh "$root/scripts/runbin" "$program" "$@"; }

# Sets up the sample bank in a file: document 001, appendix 3's customer, added without a changeover length; and one that differs in the qualifier alone.
make_bank() { # TABLE
    lentilpot setup "$1" 003701234567 "" "FRONT 4" 110 0123456789ABCDEF 0000000000000007 "$root/samples/holidays.txt" &&
        lentilpot add "$1" 941014 99910000011111111 "" F18C57209492FEB3 C71A7502021A022F 028E4C 0 1,3,16 yes yes &&
        lentilpot add "$1" 941014 99910000011111111 B F18C57209492FEB3 C71A7502021A022F 028E4C 0 1 yes no 45
}

# Receives a sample file on Monday 17 October 1994 at 09:15.
receive() { # TABLE FILE REPLIES [READ]
    t=$1 f=$2 r=$3
    shift 3
    lentilpot receive "$t" 941017 091500 1 0000000000000001 "$f" "$r" "$@"
}
