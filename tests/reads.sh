#!/bin/bash
# However the file is cut into reads, listing, replies and table are the same: every sample file, READ of 1, 7, 80, 4096 and 65536.
set -eu
root=$(cd "$(dirname "$0")/.." && pwd -P)
program=${PROGRAM:-$root/target/program/lentilpot}
. "$root/samples/bank.sh"
work=$(mktemp -d)
trap 'rm -rf "$work"' EXIT
cd "$work"
make_bank base >made
count=0
for file in "$root"/samples/*.txt; do
    name=$(basename "$file" .txt)
    cp base whole.table
    rm -f whole.replies
    receive whole.table "$file" whole.replies >whole.listing 2>told || [ $? -eq 1 ]
    for size in 1 7 80 4096 65536; do
        cp base cut.table
        rm -f cut.replies
        receive cut.table "$file" cut.replies $size >cut.listing 2>told || [ $? -eq 1 ]
        for part in table replies listing; do
            cmp -s whole.$part cut.$part || { echo "tests/reads: $name with READ $size: another $part" >&2; exit 1; }
        done
        count=$((count + 1))
    done
done
echo "reads: $count runs gave the same listing, replies and table as one whole read"
