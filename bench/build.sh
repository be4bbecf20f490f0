#!/bin/sh
# Builds the benchmark: the static libraries of the proved loops, libbench_core.a and libbench_echo.a, and the reference's files byte for byte.
# usage: build.sh OUT     (from the repository's root)
set -eu
here=$(cd "$(dirname "$0")" && pwd)
out=$1
tests/reference/copy.sh "$out"
cp "$here"/*.rs "$out/"
for name in bench_core bench_echo; do
    (cd "crates/${name}_c" && rt lib) > "$out/lib.log" 2>&1 || { tail -n 20 "$out/lib.log" >&2; exit 1; }
    cp "crates/${name}_c/out/lib${name}_c.a" "$out/lib$name.a"
done
rustc --edition 2024 -C opt-level=3 -C codegen-units=1 -L "$out" -l static=bench_core -l static=bench_echo \
    "$out/main.rs" -o "$out/bench"
