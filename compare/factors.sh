#!/usr/bin/env bash
# Writes factors and scalings of crates/test_conversions/data: what the original's `db_to_linear` and `quantise` give.
# Usage: compare/factors.sh SRC [DATA]
# SRC is the original's repository; DATA the folder that is written to. The functions are taken from its kernel.rs as
# they stand, and compiled with compare/factors.rs.
set -eu
here=$(cd "$(dirname "$0")" && pwd)
kernel=${1:?the folder of the original}/crates/scarletbook-pcm/src/kernel.rs
dir=$(mktemp -d)
trap 'rm -r "$dir"' EXIT
# An item of kernel.rs, from its first line to the brace that closes it.
item() { sed -n "/^\(pub(crate) \)\?fn $1(/,/^}/p" "$kernel"; }
{
    grep '^const MAGIC: f64' "$kernel"
    for f in round_even to_i32 db_to_linear quantise; do item $f; done
    cat "$here/factors.rs"
} > "$dir/factors.rs"
rustc --edition 2024 -O -o "$dir/factors" "$dir/factors.rs"
cd "${2:-$here/../crates/test_conversions/data}"
"$dir/factors"
