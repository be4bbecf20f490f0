#!/bin/sh
# Makes the fixed list of calls and the reference's answers to it: what the program replay_run reads
# and has to write.
# usage: replay_list.sh LAYERS     (from the repository's root)
set -eu
here=$(cd "$(dirname "$0")" && pwd)
layers=$1
built=out/differential/oracle
"$here/build.sh" "$built"
"$built/oracle" fixed "$layers" > out/differential/stdin
"$built/oracle" run < out/differential/stdin > out/differential/stdout
mv out/differential/stdin crates/replay_run/stdin
mv out/differential/stdout crates/replay_run/stdout
calls=$("$built/oracle" stats < crates/replay_run/stdin | awk '{ calls += $NF } END { print calls }')
echo "replay-list: $calls calls, layers: $layers"
