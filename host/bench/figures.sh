#!/bin/sh
# Prints times and instructions of one call, as the two tables of docs/FIGURES.md, for each case or the named ones; if
# none is named, then also the desk's table.
# From the folder host: bench/figures.sh [NAME..]
set -eu
cd "$(dirname "$0")/.."
cargo build --quiet --release --package bench

echo '| Case | Ours | Same interface | Ratio | By reference | Ratio | Aim |'
echo '|---|---|---|---|---|---|---|'
../target/host/release/bench "$@" | tail -n +2 |
    awk '{ print "| `" $1 "` | " $2 " | " $3 " | " $4 " | " $5 " | " $6 " | " $7 " |" }'

echo
echo '| Case | Ours | Same interface | Ratio | By reference | Ratio |'
echo '|---|---|---|---|---|---|'
bench/callgrind.sh "$@" | tail -n +2 |
    awk '{ print "| `" $1 "` | " $2 " | " $3 " | " $4 " | " $5 " | " $6 " |" }'

[ $# -eq 0 ] || exit 0
echo
echo '| Case | Answer | Ours | Upward | Ratio | Aim |'
echo '|---|---|---|---|---|---|'
../target/host/release/bench --desk | tail -n +2 |
    awk '/^desk-/ { print "| `" $1 "` | " $2 " | " $3 " | " $4 " | " $5 " | " $6 " |"; next } { print ""; print }'
