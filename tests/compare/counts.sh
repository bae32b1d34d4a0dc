#!/usr/bin/env bash
# Instructions of each operation by callgrind: counts.sh SHAPE NOTICES [C..], without C for 125 to 2000. SHAPE is `day`, or `dense` for
# all departures in one minute. Prints a line 'C NOTICES SIDE OPERATION INSTRUCTIONS' for each. The difference of two repeat counts
# gives one call's cost. Large `memset`s and `memcpy`s are kept from their `rep` forms, which callgrind counts byte by byte. Before
# each posting and withdrawal both areas are copied back; that cost, `restore`, is taken off. OPERATIONS in the environment names those
# to count in place of all; `correct`, a posting of a number that stands, is counted only so.
set -euo pipefail
cd "$(dirname "$0")/../.."
export GLIBC_TUNABLES=glibc.cpu.x86_rep_stosb_threshold=100000000:glibc.cpu.x86_rep_movsb_threshold=100000000
shape=$1
notices=$2
shift 2
sizes=${*:-125 250 500 1000 2000}
bench=target/compare/release/bench
operations=${OPERATIONS:-$($bench operations)}

run() {
    valgrind --tool=callgrind --callgrind-out-file=/dev/null $bench one "$shape" "$1" "$c" "$notices" "$side" "$2" 2>&1 |
        grep -oP 'Collected : \K\d+'
}

cost() {
    local few many
    few=$(run "$1" 5)
    many=$(run "$1" 25)
    echo $(((many - few) / 20))
}

for c in $sizes; do
    for side in library rust; do
        restore=$(cost restore)
        for op in $operations; do
            n=$(cost "$op")
            case $op in post | correct | withdraw) n=$((n - restore)) ;; esac
            echo "$c $notices $side $op $n"
        done
    done
done
