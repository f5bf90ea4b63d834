#!/usr/bin/env bash
# Prints how long `verify` takes, and its peak memory (by GNU time), for the certificates of searches that their budgets stopped: of drawn
# instances of 50 items, with some 100,000 and 1,000,000 nodes, and of 16 items, with 10,000,000. START ITEMS DEFECTS, and perhaps BUDGET, as
# arguments ask for the certificate of another search than those of the table. The program is built first where it is not yet.
set -euo pipefail
top=$(cd "$(dirname "$(readlink -f "$0")")/.." && pwd)
. "$top/launcher.sh"
ready glass
work=$(mktemp -d)
trap 'rm -rf "$work"' EXIT
draw() {
  awk -v start="$1" -v items="$2" -v defects="$3" -v batch="$work/batch.csv" -v faults="$work/defects.csv" -f "$top/bench/drawn.awk"
}
# has a program search a drawn instance with this budget; status 1 is that of a search that its budget stopped
search() {
  rm -f "$work/plan.csv"
  "$1" gen "$2" "$3" "$4" "$work/plan.csv" "$work/cert" --workers=1 --budget="$5" > "$work/printed" || [ $? -eq 1 ]
}
nodes() { awk -F ';' 'NR > 1 { nodes += $1 == "O" ? $2 : 1 } END { print nodes }' "$work/cert"; }
tell() {
  search "$program" "$@"
  draw "$1" "$2" "$3"
  plan=$work/plan.csv
  [ -e "$plan" ] || plan=-
  echo "$1 $2 $3, budget $4: $(nodes) nodes, $(wc -c < "$work/cert") bytes"
  /usr/bin/time -q -o "$work/spent" -f '%e %M' timeout 600 "$program" verify "$work/batch.csv" "$work/defects.csv" "$plan" "$work/cert" > "$work/accepted" || {
    cat "$work/accepted"
    exit 1
  }
  awk -v accepted="$(cat "$work/accepted")" '{ printf "  %.2f s, peak memory %d MB: %s\n", $1, $2 * 1024 / 1000000, accepted }' "$work/spent"
}
search "$top/glass" 7 1 0 1
if [ $# -gt 0 ]; then
  tell "$1" "$2" "$3" "${4:-1000000}"
  exit
fi
tell 7 50 0 100000
tell 7 50 0 1000000
tell 7 50 20 1000000
tell 7 16 5 10000000
