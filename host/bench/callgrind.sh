#!/bin/sh
# Prints the instructions of one call, of the library, of plain Rust behind the same interface and of plain Rust by
# reference, for each case or the named ones. The count of a call is a twentieth of the difference between 30 calls and
# 10 (of a run and of a long log: that between 2 and 1), so that the start of the program falls out.
# From the folder host: bench/callgrind.sh [NAME..]
set -eu
cd "$(dirname "$0")/.."
command -v valgrind >/dev/null || { echo "valgrind is not here: nothing is counted" >&2; exit 0; }
cargo build --quiet --release --package bench
bench=../target/host/release/bench

# The instructions of so many calls: NAME SIDE TIMES
count() {
    valgrind --tool=callgrind --callgrind-out-file=/dev/null "$bench" --one "$1" "$2" --times "$3" 2>&1 |
        sed -n 's/.*Collected : \([0-9]*\).*/\1/p'
}

# The instructions of one call: NAME SIDE
per_call() {
    case "$1" in
        run-* | statement-100000-*) few=1 more=2 ;; # a million ticks each, or four million jobs
        *) few=10 more=30 ;;
    esac
    echo $((($(count "$1" "$2" "$more") - $(count "$1" "$2" "$few")) / (more - few)))
}

names=$("$bench" --list)
for name in "$@"; do
    echo "$names" | grep -qx -e "$name" || { echo "no such case: $name" >&2; exit 2; }
done

printf '%-30s %14s %14s %7s %14s %7s\n' case ours same ratio reference ratio
for name in ${*:-$names}; do
    ours=$(per_call "$name" ours)
    same=$(per_call "$name" same)
    reference=$(per_call "$name" reference)
    awk -v name="$name" -v ours="$ours" -v same="$same" -v by="$reference" 'BEGIN {
        printf "%-30s %14s %14s %7.2f %14s %7.2f\n", name, ours, same, ours / same, by, ours / by
    }'
done
