#!/bin/sh
# Plants each slip in a compiled copy of the reference, and holds the copy to the reference by the
# same run that the port is held by. Every slip must be told from the reference.
# usage: slips.sh [CALLS [SEED]]     (from the repository's root)
set -eu
here=$(cd "$(dirname "$0")" && pwd)
calls=${1:-30000}
seed=${2:-1}
all="outer record parser guest host"
built=out/differential/oracle
work=out/differential/slips
"$here/build.sh" "$built"

# With no slip there is no difference.
control=$("$built/oracle" differential "$seed" "$calls" "$all" "$built/oracle" run | tail -n 1)
case $control in
    *", 0 differences") ;;
    *) echo "slips: with no slip: $control"; exit 1 ;;
esac

# Plants a slip in a copy of its own, and says whether it was found.
try() {
    name=$(basename "$1" .slip)
    rm -rf "$work/$name"
    cp -R "$built" "$work/$name"
    "$built/oracle" plant "$1" "$work/$name"
    rustc --edition 2024 -C debuginfo=0 -A warnings "$work/$name/main.rs" -o "$work/$name/oracle"
    line=$("$built/oracle" differential "$seed" "$calls" "$all" "$work/$name/oracle" run | tail -n 1) || true
    rm -rf "$work/$name"
    case $line in
        *", 0 differences") echo "$name: NOT FOUND" ;;
        "differential: "*" differences") echo "$name: ${line#*, }" ;;
        *) echo "$name: the run failed" ;;
    esac
}

# As many at a time as there are processors.
rm -rf "$work"
mkdir -p "$work"
lanes=$(nproc)
count=0
for slip in "$here"/slips/*.slip; do
    count=$((count + 1))
    try "$slip" > "$work/$(basename "$slip" .slip).said" &
    [ $((count % lanes)) -ne 0 ] || wait
done
wait
cat "$work"/*.said
found=$(cat "$work"/*.said | grep -c ' differences$')
echo "$found of $count slips found"
[ "$found" = "$count" ]
