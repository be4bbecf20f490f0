#!/bin/sh
# Builds the oracle: the reference's files byte for byte, with a child module appended to three of
# them, and the harness around them.
# usage: build.sh OUT [words for rustc]     (from the repository's root)
set -eu
here=$(cd "$(dirname "$0")" && pwd)
out=$1
shift
"$here/../reference/copy.sh" "$out"
cp -R "$here/oracle/." "$out/"
for name in record guest host; do
    cat "$here/oracle/reference/tail_$name.rs" >> "$out/protocol/nvxs/$name.rs"
done

# Each file of the reference is an unchanged prefix of what is compiled.
from=${NVXS_REFERENCE:-../shared/docs/src}/nvx-rs/src/protocol
for name in nvxs/record nvxs/guest nvxs/host nvxs/mod outer; do
    size=$(wc -c < "$from/$name.rs")
    cmp -n "$size" "$from/$name.rs" "$out/protocol/$name.rs"
done

rustc --edition 2024 -C opt-level=3 "$@" "$out/main.rs" -o "$out/oracle"
