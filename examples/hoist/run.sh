#!/bin/sh
# Runs the hoist: makes its plan from the text and runs it on the outside bytes of rows.txt.
# usage: run.sh [PROGRAM [MKPLAN]]    PROGRAM and MKPLAN: by default the world and mkplan that rt built
# Prints what the partitions show, and holds it to hoist.expected. Status 0 if it is the same, 1 if not.
set -eu
here=$(cd "$(dirname "$0")" && pwd)
program=${1:-$here/../../crates/world/out/world}
mkplan=${2:-$here/../../crates/mkplan/out/mkplan}
work=$(mktemp -d)
trap 'rm -rf "$work"' EXIT
"$mkplan" "$here/hoist.plan.txt" "$work/hoist.plan" >&2
"$program" "$work/hoist.plan" "$here/hoist.rows" | tee "$work/shown"
if cmp -s "$work/shown" "$here/hoist.expected"; then
    echo "$(wc -l <"$work/shown") bytes shown, as in hoist.expected" >&2
else
    echo 'run.sh: this is not what hoist.expected has' >&2
    exit 1
fi
