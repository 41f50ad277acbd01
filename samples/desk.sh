# shellcheck shell=sh
# Sourced by samples/run and tests/: the program of the customer's side and the sample customer's desk. Needs: root (the repository), bureau_program (its path).
: "${root:?}" "${bureau_program:?}"
bureau() { sh "$root/scripts/runbin" "$bureau_program" "$@"; }

# Opens the sample customer's desk at the sample bank (samples/bank.sh): keys come by standard input, never as words.
make_desk() { # DESK
    printf '%s\n' F18C57209492FEB3 C71A7502021A022F 1F2E3D4C5B6A7988 0000000000000009 |
        bureau open "$1" 99910000011111111 "" 003701234567 "" "PAYROLL 7" - - 028E4C 0 - -
}
