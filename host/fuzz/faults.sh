#!/usr/bin/env bash
# The harness on functions with a fault (faults.c): each must end it.
#
#     host/fuzz/faults.sh [--memcheck]
set -euo pipefail
cd "$(dirname "$0")/../.."
out=target/fuzz
mkdir -p "$out"
if [ "${1:-}" = --memcheck ]; then
    faults=(polygon_signed_area is_ccw layer_name bbox_from_points)
    flags=-DMEMCHECK run=(valgrind --quiet --error-exitcode=9 --exit-on-first-error=yes)
else
    faults=(polygon_area polygon_signed_area is_ccw is_axis_aligned_rectangle dedup_ring cell_count layer_name)
    flags=-UMEMCHECK run=()
fi
# Of faults.c, what is not linked in place of another function is left out.
cc -std=c99 -O2 -Iinclude "$flags" -ffunction-sections -r -nostdlib host/fuzz/*.c -o "$out/faults.o"
missed=0
for fault in "${faults[@]}"; do
    cc -Wl,--gc-sections -Wl,--wrap="openrdson_$fault" "$out/faults.o" target/staticlib/libc_api.a -o "$out/fault"
    if "${run[@]}" "$out/fault" --random 5000 1 > "$out/fault.log" 2>&1; then
        echo "faults.sh: the fault in $fault is missed"
        missed=$((missed + 1))
    fi
done
echo "$((${#faults[@]} - missed)) faults caught, $missed missed"
[ "$missed" = 0 ]
