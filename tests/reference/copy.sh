#!/bin/sh
# Copies the Rust reference to OUT/protocol, its files byte for byte. Of protocol/mod.rs the part from its
# error type on is taken, under head_protocol.rs: what stands above names modules that are left out.
# usage: copy.sh OUT     (from the repository's root; OUT is made anew)
# The reference is the folder NVXS_REFERENCE, or ../shared/docs/src.
set -eu
here=$(cd "$(dirname "$0")" && pwd)
out=$1
reference=${NVXS_REFERENCE:-../shared/docs/src}
from=$reference/nvx-rs/src/protocol
if [ ! -f "$from/outer.rs" ]; then
    echo "the reference source is not there: $reference" >&2
    exit 3
fi

rm -rf "$out"
mkdir -p "$out/protocol/nvxs"
for name in nvxs/record nvxs/guest nvxs/host nvxs/mod outer; do
    cp "$from/$name.rs" "$out/protocol/$name.rs"
done
sed -n '/^\/\/\/ Protocol violation detected/,$p' "$from/mod.rs" > "$out/protocol/part"
cat "$here/head_protocol.rs" "$out/protocol/part" > "$out/protocol/mod.rs"
size=$(wc -c < "$out/protocol/part")
tail -c "$size" "$from/mod.rs" | cmp - "$out/protocol/part"
