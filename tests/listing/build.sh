#!/bin/sh
# Builds the listing over the reference's parser: the reference's files unchanged, and the program of
# tests/listing/oracle around them.
# usage: build.sh OUT     (from the repository's root)
set -eu
here=$(cd "$(dirname "$0")" && pwd)
harness=$here/../differential/oracle
out=$1
"$here/../reference/copy.sh" "$out"
cp "$here/oracle/"*.rs "$harness/refusal.rs" "$harness/generate/rng.rs" "$out/"
rustc --edition 2024 -C opt-level=3 "$out/main.rs" -o "$out/oracle"
