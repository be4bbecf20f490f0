#!/bin/sh
# Builds the benchmark, counts instructions where valgrind is there, times every case and prints one table.
# usage: run.sh     (from the repository's root)
set -eu
here=$(cd "$(dirname "$0")" && pwd)
out=out/bench
"$here/build.sh" "$out"

# One dump for each call of a loop, in the order of the calls; its `summary` is the count.
if command -v valgrind > /dev/null; then
    dumps=
    for loop in nvxs_receive nvxs_send nvxs_echo rust_receive rust_send rust_echo; do
        dumps="$dumps --dump-after=$loop"
    done
    # shellcheck disable=SC2086
    valgrind --tool=callgrind --callgrind-out-file="$out/dump" --toggle-collect='nvxs_*' --toggle-collect='rust_*' \
        $dumps "$out/bench" count > "$out/valgrind.log" 2>&1
    i=1
    while [ -f "$out/dump.$i" ]; do
        sed -n 's/^summary: //p' "$out/dump.$i"
        i=$((i + 1))
    done > "$out/counts"
fi

# One processor for the whole run, where it can be chosen.
pin=
if command -v taskset > /dev/null && taskset -c 1 true 2> /dev/null; then
    pin='taskset -c 1'
fi
$pin "$out/bench" time "$out/counts"
