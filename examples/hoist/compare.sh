#!/bin/sh
# Shows that drive, watch and signals print the same bytes in the same ticks whichever diary runs beside them.
# usage: compare.sh PROGRAM [MKPLAN]
#   PROGRAM  run or world: PROGRAM PLAN ROWS prints a line for each byte shown, as in 0 at 19: 11
#   MKPLAN   makes the plans from their texts; without it hoist.plan and hoist2.plan must stand here
# Status 0 if it is so, 1 if not.
set -eu
here=$(cd "$(dirname "$0")" && pwd)
fail() { echo "compare.sh: $*" >&2; exit 1; }

[ $# -eq 1 ] || [ $# -eq 2 ] || fail 'write compare.sh PROGRAM [MKPLAN]'
program=$1
work=$(mktemp -d)
trap 'rm -rf "$work"' EXIT
plans=$here
if [ $# -eq 2 ]; then
    plans=$work
    for name in hoist hoist2; do
        "$2" "$here/$name.plan.txt" "$work/$name.plan" || fail "$2 did not make $name.plan"
    done
fi
for name in hoist hoist2; do
    [ -f "$plans/$name.plan" ] ||
        fail "there is no $plans/$name.plan; make it with mkplan $name.plan.txt $name.plan, or name mkplan as the second argument"
    "$program" "$plans/$name.plan" "$here/hoist.rows" >"$work/$name" || fail "$program failed on $name.plan"
done

# Partitions have their numbers from the order of the text.
number=0
for partition in $(awk '$1 == "partition" { print $2 }' "$here/hoist.plan.txt"); do
    for name in hoist hoist2; do
        grep "^$number at " "$work/$name" >"$work/$name.$number" || fail "$partition shows nothing with $name.plan"
    done
    one=$(($(wc -l <"$work/hoist.$number"))) two=$(($(wc -l <"$work/hoist2.$number")))
    if cmp -s "$work/hoist.$number" "$work/hoist2.$number"; then
        [ "$partition" != diary ] || fail 'the two diaries show the same'
        echo "$partition: $one bytes, the same bytes in the same ticks with both diaries"
    elif [ "$partition" = diary ]; then
        echo "$partition: $one bytes from the first, $two from the second, and they differ"
    else
        diff "$work/hoist.$number" "$work/hoist2.$number" | head -n 10 >&2
        fail "$partition does not show the same with both diaries; first differences above"
    fi
    number=$((number + 1))
done
