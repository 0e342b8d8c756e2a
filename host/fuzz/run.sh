#!/usr/bin/env bash
# Fuzzes the C functions of target/staticlib/libc_api.a with libFuzzer, from an empty corpus. Needs clang and objdump.
#
#     host/fuzz/run.sh [SECONDS [SEED]]
set -euo pipefail
cd "$(dirname "$0")/../.."
seconds=${1:-3600} seed=${2:-1}
archive=target/staticlib/libc_api.a out=target/fuzz
[ -f "$archive" ] || { echo "no $archive: run host/archive.sh" >&2; exit 1; }
rm -rf "$out/corpus" "$out/finds" "$out/objects"
mkdir -p "$out/corpus" "$out/finds" "$out/objects"
for file in host/fuzz/*.c; do
    name=$(basename "$file" .c)
    case $name in
    main | faults) ;;
    *) clang -std=c99 -Wall -Wextra -O2 -g -Iinclude -c "$file" -o "$out/objects/$name.o" ;;
    esac
done
# The traps stand at fixed addresses. libFuzzer is linked, but the harness is not instrumented: what counts is the archive.
clang -no-pie -fsanitize=fuzzer "$out"/objects/*.o "$archive" -o "$out/fuzz"
host/fuzz/blocks.sh "$archive" "$out/fuzz" > "$out/blocks"
status=0
export FUZZ_BLOCKS="$out/blocks" FUZZ_UNREACHED="$out/unreached"
"$out/fuzz" -seed="$seed" -max_total_time="$seconds" -timeout=20 -rss_limit_mb=1024 -max_len=1024 -print_final_stats=1 \
    -artifact_prefix="$out/finds/" "$out/corpus" > "$out/log" 2>&1 || status=$?
sed -n '/^stat::/p; /^inputs:/,$p' "$out/log"
echo "corpus: $(find "$out/corpus" -type f | wc -l) inputs; finds: $(find "$out/finds" -type f | wc -l)"
if [ "$status" != 0 ]; then
    grep -v '^#' "$out/log" | head -n 40
    echo "the fuzzer ended with $status; its input is in $out/finds" >&2
    exit "$status"
fi
