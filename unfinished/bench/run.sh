#!/bin/bash
# Compares the engines with one another, then prints what an operation costs: instructions, then wall time.
# The proved engine takes part if its library has been built (rt staticlib batch).
set -e
cd "$(dirname "$0")"
features=()
if [ -f ../target/staticlib/libbatch.a ]; then
    features=(--features proved)
fi
cargo build --release --quiet "${features[@]}"
target/release/bench diff "${1:-2000}"
target/release/bench workloads
target/release/bench table
target/release/bench times
