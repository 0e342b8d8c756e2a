#!/usr/bin/env bash
# Assembles the unchanged Rust as crates in target/oracle, so that nothing of it is kept in this repository.
# Its folder is OPENRDSON_SRC, from the repository's top; by default ../shared/docs/src.
set -euo pipefail
cd "$(dirname "$0")/.."
src=${OPENRDSON_SRC:-../shared/docs/src}
out=target/oracle

# place FILE: the standard input becomes FILE, which keeps its date if it is the same.
place() {
    mkdir -p "$(dirname "$1")"
    cat > "$1.new"
    if cmp -s "$1.new" "$1"; then rm "$1.new"; else mv "$1.new" "$1"; fi
}

# original FILE: a file of the published tree, which must be there.
original() {
    if [ ! -f "$src/$1" ]; then
        echo "host/assemble.sh: $1 is not in $src" >&2
        exit 1
    fi
    cat "$src/$1"
}

# manifest NAME DEPENDENCY..
manifest() {
    local name=$1 dep
    shift
    {
        printf '[package]\nname = "%s"\nversion = "0.0.0"\nedition = "2021"\n\n[dependencies]\n' "$name"
        for dep in "$@"; do printf '%s = { path = "../%s" }\n' "$dep" "$dep"; done
    } | place "$out/$name/Cargo.toml"
}

manifest openrdson-core
modules='geometry layout log mesh tech'
for module in $modules; do
    original "openrdson-core/src/$module.rs" | place "$out/openrdson-core/src/$module.rs"
done
printf 'pub mod %s;\n' $modules | place "$out/openrdson-core/src/lib.rs"

for crate in geometry meshing; do
    manifest "$crate" openrdson-core
    # The text itself, then one module: a module inside the crate sees its private functions.
    {
        original "$crate/src/lib.rs"
        printf '\n#[path = "reach.rs"]\npub mod reach;\n'
    } | place "$out/$crate/src/lib.rs"
    cmp -n "$(wc -c < "$src/$crate/src/lib.rs")" "$src/$crate/src/lib.rs" "$out/$crate/src/lib.rs"
    place "$out/$crate/src/reach.rs" < "host/reach/$crate.rs"
done
