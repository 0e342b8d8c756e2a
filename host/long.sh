#!/usr/bin/env bash
# The long comparison: host/long.sh [--minutes M] [--seed S] [--call NAME], by default five minutes from seed 1. The time is the comparison's
# alone: the original is assembled and the archive is made before it. A mismatch, a number that a call did not give, and one that is not its own
# are failures.
set -euo pipefail
cd "$(dirname "$0")/.."
minutes=5
rest=()
while [ $# -gt 0 ]; do
    if [ "$1" = --minutes ]; then minutes=${2:-}; else rest+=("$1" "${2:-}"); fi
    shift $(($# < 2 ? $# : 2))
done
if ! [[ $minutes =~ ^[1-9][0-9]{0,5}$ ]]; then
    echo "host/long.sh: --minutes asks for a whole number above zero" >&2
    exit 2
fi
export CARGO_TARGET_DIR="$PWD/target/cargo"
host/assemble.sh
host/archive.sh
cd host
cargo build --quiet --release --offline --locked -p compare
"$CARGO_TARGET_DIR/release/compare" --seconds $((60 * minutes)) ${rest[@]+"${rest[@]}"}
