#!/usr/bin/env bash
# valgrind's memcheck over the harness, on the corpus of the last fuzzing run and on random inputs, and over a share of the
# comparison, if host/run.sh has built it. Each list has an allocation of its own length, and one that is only written is not set.
#
#     host/fuzz/memcheck.sh [INPUTS]
set -euo pipefail
cd "$(dirname "$0")/../.."
inputs=${1:-20000}
out=target/fuzz
mkdir -p "$out/corpus"
sources=$(ls host/fuzz/*.c | grep -v faults)
cc -std=c99 -Wall -Wextra -pedantic -O2 -g -DMEMCHECK -Iinclude $sources target/staticlib/libc_api.a -o "$out/memcheck"
check() {
    local what=$1 status=0
    shift
    valgrind --error-exitcode=9 "$@" > "$out/memcheck.log" 2>&1 || status=$?
    echo "$what: $(sed -n 's/^==[0-9]*== \(ERROR SUMMARY.*\)/\1/p' "$out/memcheck.log")"
    if [ "$status" != 0 ]; then
        grep '^==' "$out/memcheck.log" | head -n 40
        exit "$status"
    fi
}
find "$out/corpus" -type f | sort > "$out/files"
mapfile -t files < "$out/files"
if [ ${#files[@]} != 0 ]; then
    check "${#files[@]} inputs of the corpus" "$out/memcheck" "${files[@]}"
fi
check "$inputs random inputs" "$out/memcheck" --random "$inputs" 1
if [ -x target/cargo/release/compare ]; then
    check "compare --cases 200" target/cargo/release/compare --cases 200
fi
host/fuzz/faults.sh --memcheck
