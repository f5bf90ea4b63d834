#!/usr/bin/env bash
# Prints how long a batch of 4,194,304 bytes takes to be read and refused: rows of the fewest bytes, and one row at its end too many.
set -eu
top=$(cd "$(dirname "$(readlink -f "$0")")/.." && pwd)
work=$(mktemp -d)
trap 'rm -rf "$work"' EXIT
awk 'BEGIN { print "h"; for (k = 0; k < 419430; k++) print "1;1;1;1;1" }' > "$work/many.csv"
awk 'BEGIN { print "h"; for (k = 0; k < 2097151; k++) print "x" }' > "$work/short.csv"
"$top/glass" draft "$top/examples/tiny/batch.csv" "$work/plan.csv" > "$work/built"
TIMEFORMAT='%R s'
for file in many short; do
  wc -c < "$work/$file.csv"
  time "$top/glass" draft "$work/$file.csv" "$work/plan.csv" || true
done
