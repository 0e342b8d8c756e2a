#!/usr/bin/env bash
# Holds the header and the Rust crate to the archive, and compares Rattle with the unchanged Rust: the gate's share, or what the
# arguments ask of `compare`.
set -euo pipefail
cd "$(dirname "$0")/.."
export CARGO_TARGET_DIR="$PWD/target/cargo"
host/assemble.sh
host/archive.sh
host/sample.sh
cd host
cargo build --quiet --release --offline --locked
"$CARGO_TARGET_DIR/release/header"
cc -Wall -Wextra -Werror -pedantic -std=c99 -O1 -I../include header/calls.c ../target/staticlib/libc_api.a -o "$CARGO_TARGET_DIR/calls"
"$CARGO_TARGET_DIR/calls"
fuzz/share.sh
cargo test --quiet --release --offline --locked -p openrdson
"$CARGO_TARGET_DIR/release/moved"
"$CARGO_TARGET_DIR/release/differences"
"$CARGO_TARGET_DIR/release/record" --check
"$CARGO_TARGET_DIR/release/copies"
"$CARGO_TARGET_DIR/release/compare" "$@"
