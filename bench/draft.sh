#!/usr/bin/env bash
# Prints how long a draft of 800 items takes.
set -eu
top=$(cd "$(dirname "$(readlink -f "$0")")/.." && pwd)
work=$(mktemp -d)
trap 'rm -rf "$work"' EXIT
awk -f "$top/bench/items.awk" > "$work/batch.csv"
"$top/glass" draft "$top/examples/tiny/batch.csv" "$work/plan.csv" > "$work/built"
TIMEFORMAT='%R s'
time "$top/glass" draft "$work/batch.csv" "$work/plan.csv"
