#!/usr/bin/env bash
# Prints what `--fronts` says of a table of instances, drawn ones by the numbers that `gen` takes and the example: items, stacks, defects, the loss of the plan, the bound, the
# bound without the option, and the seconds of one worker with a budget of one box. Other instances may be given: bench/optimal.sh "13 40 40" "7 50 20".
# The program is built first where it is not yet.
set -euo pipefail
top=$(cd "$(dirname "$(readlink -f "$0")")/.." && pwd)
. "$top/launcher.sh"
ready glass
work=$(mktemp -d)
trap 'rm -rf "$work"' EXIT
cd "$work"
runs() { "$@" || [ $? -le 2 ]; }
value() { awk -v word="$1" '$1 == word { print $2 }' printed; }
row() {
  local name=$1 items stacks flaws bound
  shift
  items=$(tail -n +2 batch | wc -l)
  stacks=$(tail -n +2 batch | cut -d ';' -f 4 | sort -u | wc -l)
  flaws=$(tail -n +2 defects | wc -l)
  runs "$program" "$@" --budget=1 --workers=1 > printed
  bound=$(value bound)
  TIMEFORMAT=%U
  { time runs "$program" "$@" --budget=1 --workers=1 --fronts > printed; } 2> seconds
  echo "$name: $items items, $stacks stacks, $flaws defects: loss $(value loss) bound $(value bound) without $bound seconds $(cat seconds)"
}
if [ $# = 0 ]; then
  cp "$top"/examples/realistic/{batch,defects}.csv .
  mv batch.csv batch && mv defects.csv defects
  row realistic plan batch defects plan cert
  set -- "7 20 10" "12 30 5" "26 30 100" "13 40 0" "13 40 40" "1 50 0" "2 50 0" "3 50 0" "4 50 0" "5 50 0" "7 50 0" "7 50 20" "7 100 30" "7 200 60"
fi
for drawn in "$@"; do
  read -r start items flaws <<< "$drawn"
  awk -v start="$start" -v items="$items" -v defects="$flaws" -v batch=batch -v faults=defects -f "$top/bench/drawn.awk"
  row "$drawn" gen "$start" "$items" "$flaws" plan cert
done
