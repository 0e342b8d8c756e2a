#!/usr/bin/env bash
# Makes the sample's program, target/bin/sample, anew.
set -euo pipefail
cd "$(dirname "$0")/.."
mkdir -p target/bin
rm -f target/bin/sample
(cd crates/sample && rm -f out/sample && rt run >/dev/null)
cp crates/sample/out/sample target/bin/
