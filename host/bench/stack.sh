#!/bin/sh
# Prints the bytes of stack that each export takes; with a number, fails where one takes more bytes than that, and held,
# where one takes more than its aim.
# The library must be built: ./build library. From anywhere: host/bench/stack.sh [MOST | --hold]
set -eu
cd "$(dirname "$0")"
made=../../target/host
mkdir -p "$made"
../x86-64 sh -c '${CC:-cc} -O2 -Wall -pthread stack.c ../../target/staticlib/libcoreshare.a -o "$0"' "$made/stack"
../x86-64 --program "$made/stack" "$@"
