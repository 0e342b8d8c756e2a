#!/usr/bin/env bash
# Makes the archive of the C functions, target/staticlib/libc_api.a, anew: an archive of an earlier run would hide a crate that is not proved.
set -euo pipefail
cd "$(dirname "$0")/.."
rm -rf target/staticlib
mkdir -p target/staticlib
(cd crates/c_api && rm -f out/libc_api.a && rt lib)
cp crates/c_api/out/libc_api.a target/staticlib/
