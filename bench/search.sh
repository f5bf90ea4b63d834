#!/usr/bin/env bash
# Prints how many boxes a search handles in a second of processor time behind the first plan, on the drawn instances of glass_gen: the time
# of `plan` less that with a budget of one box, each the least of three runs; with the usual budget of 100,000 boxes, where the first plan
# takes most of the time, and with 800,000. Then what one run at the limit of work takes, 16 items times 10,000,000 boxes: time, peak
# memory (by GNU time) and the size of its certificate. START ITEMS DEFECTS, and perhaps BUDGET, as arguments ask for another search than
# those of the table. The program is built first where it is not yet.
set -euo pipefail
top=$(cd "$(dirname "$(readlink -f "$0")")/.." && pwd)
. "$top/launcher.sh"
ready glass
work=$(mktemp -d)
trap 'rm -rf "$work"' EXIT
draw() {
  awk -v start="$1" -v items="$2" -v defects="$3" -v batch="$work/batch.csv" -v faults="$work/defects.csv" -f "$top/bench/drawn.awk"
}
# calls a program on the instance that was drawn, with this budget; status 1 is that of a search that its budget stopped
plan() {
  budget=$1
  shift
  "$@" plan "$work/batch.csv" "$work/defects.csv" "$work/plan.csv" "$work/cert" --budget="$budget" > "$work/printed" || [ $? -eq 1 ]
}
told() { awk -v ORS='' '{ print (NR > 1 ? ", " : "") $1 " " $2 } END { print "\n" }' "$work/printed"; }
tell() {
  draw "$1" "$2" "$3"
  : > "$work/times"
  for _ in 1 2 3; do
    for budget in 1 "$4"; do
      TIMEFORMAT="$budget %U %S"
      { time plan "$budget" "$program"; } 2>> "$work/times"
    done
  done
  echo -n "$1 $2 $3: "
  told
  awk -v budget="$4" '
    NR == FNR { spent = $2 + $3; if (!($1 in least) || spent < least[$1]) least[$1] = spent; next }
    $1 == "boxes" {
      spent = least[budget] - least[1]
      printf "  %.3f s with one box, %.3f s with all", least[1], least[budget]
      if ($2 > 1 && spent > 0) printf ": %d boxes in a second\n", ($2 - 1) / spent
      else print ": too few boxes to be timed"
    }' "$work/times" "$work/printed"
}
draw 7 1 0
plan 1 "$top/glass"
if [ $# -gt 0 ]; then
  tell "$1" "$2" "$3" "${4:-100000}"
  exit
fi
for budget in 100000 800000; do
  tell 7 20 10 "$budget"
  tell 7 50 20 "$budget"
  tell 7 200 60 "$budget"
done
draw 7 16 5
plan 10000000 /usr/bin/time -q -o "$work/spent" -f '%U %S %M' timeout 300 "$program"
echo -n "7 16 5: "
told
awk -v bytes="$(wc -c < "$work/cert")" '{
  printf "  %.1f s of processor time, peak memory %d MB, certificate %.1f MB\n", $1 + $2, $3 * 1024 / 1000000, bytes / 1000000
}' "$work/spent"
