#!/usr/bin/env bash
# Prints the table of times and memory, the unchanged Rust beside Rattle: bench.sh [--quick] [GROUP..]. What is built before it prints to stderr.
set -euo pipefail
cd "$(dirname "$0")/.."
export CARGO_TARGET_DIR="$PWD/target/cargo"
host/assemble.sh
host/archive.sh >&2
cd host
cargo build --quiet --release --offline --locked -p bench
exec "$CARGO_TARGET_DIR/release/bench" "$@"
