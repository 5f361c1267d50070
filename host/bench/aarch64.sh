#!/usr/bin/env bash
# Measures on an Arm machine's own processor, by a library that host/aarch64 makes for it.
#   host/bench/aarch64.sh [ARGUMENTS OF bench]
set -euo pipefail
cd "$(dirname "$0")/../.."

work=$(mktemp -d)
trap 'rm -rf "$work"' EXIT
host/aarch64 "$work/target/staticlib"
cp -r host examples "$work"
cd "$work/host"
cargo build --quiet --release --package bench
../target/host/release/bench "$@"
