#!/bin/sh
# Holds nvxs_list to a listing over the Rust parser, on random, damaged and cut captures; and shows that
# the comparison finds each of four planted slips.
# usage: run.sh CAPTURES SEED     (from the repository's root)
# The port is the program that PROGRAM names, or nvxs_list, which is proved first and run on its worked capture.
set -eu
here=$(cd "$(dirname "$0")" && pwd)
built=out/listing/oracle
mkdir -p out/listing
"$here/build.sh" "$built"
if [ -z "${PROGRAM:-}" ]; then
    tests/program nvxs_list
    PROGRAM=crates/nvxs_list/out/nvxs_list
fi
for slip in reset credit offset unfinished; do
    if "$built/oracle" compare "$2" 300 "$built/oracle" list "$slip" > out/listing/slip.log 2>&1; then
        echo "listing: the slip '$slip' was not found"
        exit 1
    fi
    echo "slip '$slip': found"
done
exec "$built/oracle" compare "$2" "$1" "$PROGRAM"
