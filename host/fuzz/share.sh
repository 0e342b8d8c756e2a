#!/usr/bin/env bash
# The gate's share of the fuzzing: random inputs without a fuzzer, and the faults that must be caught. Needs cc alone.
set -euo pipefail
cd "$(dirname "$0")/../.."
out=target/fuzz
mkdir -p "$out"
sources=$(ls host/fuzz/*.c | grep -v faults)
cc -std=c99 -Wall -Wextra -Werror -pedantic -O2 -Iinclude $sources target/staticlib/libc_api.a -o "$out/replay"
"$out/replay" --random 20000 1 > "$out/replay.log"
echo "$(sed -n 's/^inputs: //p' "$out/replay.log") random inputs to the C functions, none with a fault"
host/fuzz/faults.sh
