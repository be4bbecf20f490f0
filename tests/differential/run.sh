#!/bin/sh
# Holds the port to the reference: runs both on one list of calls and compares every answer.
# usage: run.sh CALLS SEED LAYERS     (from the repository's root)
# The port is the program that PROGRAM names, or replay_run, which is proved first and run on its fixed list.
set -eu
here=$(cd "$(dirname "$0")" && pwd)
built=out/differential/oracle
"$here/build.sh" "$built"
if [ -z "${PROGRAM:-}" ]; then
    if ! tests/program replay_run; then
        echo "differential: replay_run is not proved, or its fixed list differs"
        exit 1
    fi
    PROGRAM=crates/replay_run/out/replay_run
fi
exec "$built/oracle" differential "$2" "$1" "$3" "$PROGRAM"
