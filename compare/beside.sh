#!/usr/bin/env bash
# Builds a cargo project of this folder beside the original, and runs it.
# Usage: compare/beside.sh PROJECT SRC WORDS..
# SRC is the original's repository. It is built as it stands, in a folder of its own. Its one dependency, thiserror, is
# taken from Debian's package librust-thiserror-dev where that is installed, else from crates.io. WORDS go to the
# program.
set -eu
here=$(cd "$(dirname "$0")" && pwd)
project=$1
src=$(cd "$2/crates/scarletbook-pcm/src" && pwd)
shift 2
dir=$(mktemp -d)
trap 'rm -r "$dir"' EXIT
cp -r "$here"/*/ "$dir"
mkdir "$dir/original" "$dir/scalar" "$dir/.cargo"
ln -s "$src" "$dir/original/src"
manifest() { printf '[package]\nname = "%s"\nversion = "0.0.0"\nedition = "2024"\n\n[dependencies]\nthiserror = "1"\n' "$1"; }
manifest scarletbook-pcm > "$dir/original/Cargo.toml"
# The scalar path: a copy in which the machine is not asked.
cp -r "$src" "$dir/scalar/src"
chmod -R u+w "$dir/scalar"
sed -i 's/^    pub(crate) fn detect() -> Isa {$/&\n        if true {\n            return Isa::generic();\n        }/' "$dir/scalar/src/dispatch.rs"
manifest scarletbook-pcm-scalar > "$dir/scalar/Cargo.toml"
registry=/usr/share/cargo/registry
if ls -d "$registry"/thiserror-1* > "$dir/found" 2>&1; then
    cat > "$dir/.cargo/config.toml" <<END
[source.crates-io]
replace-with = "debian"

[source.debian]
directory = "$registry"
END
fi
(cd "$dir/$project" && cargo build --release --quiet)
"$dir/$project/target/release/$project" "$@"
