#!/usr/bin/env bash
# Bounds by fronts on examples/realistic and on drawn instances (start, items, defects): the loss of which it is shown that no plan loses less, with processor seconds and memory.
#
#   bench/fronts.sh [--plans] [PLAIN]      --plans: besides, what the plan loses that is found along the fronts, or `none`. PLAIN: a program that answers `PLAIN gen START ITEMS DEFECTS --bound` and `PLAIN BATCH DEFECTS --bound` with a line `bound LOSS ..`, to compare with
set -eu
top=$(cd "$(dirname "$0")/.." && pwd)
asked=
if [ "${1:-}" = --plans ]; then
  asked='plan '
  shift
fi
plain=${1:-}
(cd "$top/crates/front_book" && rt run > /dev/null 2>&1 < stdin)
program=$top/crates/front_book/out/front_book
[ -x "$program" ] || { echo "front_book is not built" >&2; exit 1; }
work=$(mktemp -d)
trap 'rm -rf "$work"' EXIT
# the line of front_book that gives the instance of a batch and a defects file, on the usual plates
line_of() {
  awk -F ';' '
    FNR == 1 { file++; next }
    file == 1 { items = items " " $2 " " $3 " " $4; next }
    {
      x1 = int($3 + $5); if (x1 < $3 + $5) x1++
      y1 = int($4 + $6); if (y1 < $4 + $6) y1++
      defects = defects " " $2 " " int($3) " " int($4) " " x1 - int($3) " " y1 - int($4)
    }
    END { print "100 6000 3210 100 3500 100 20 /" items (defects == "" ? "" : " /" defects) }' "$1" "$2"
}
# tells of the instance of these files under a name; what is behind asks the plain program for it
tell() {
  local name=$1 batch=$2 faults=$3
  shift 3
  loss=$(line_of "$batch" "$faults" | sed "s/^/$asked/" | /usr/bin/time -o "$work/figures" -f '%U %M' "$program" | sed 's/.*: //')
  read -r seconds memory < "$work/figures"
  printf '%-12s %12s %8s %8s' "$name" "$loss" "$seconds" $((memory / 1024))
  if [ -n "$plain" ]; then
    other=$(/usr/bin/time -o "$work/figures" -f '%U %M' "$plain" "$@" --bound | awk '/^bound/ { print $2 }')
    read -r seconds memory < "$work/figures"
    printf ' %12s %8s %8s' "$other" "$seconds" $((memory / 1024))
  fi
  printf '\n'
}
printf '%-12s %12s %8s %8s' instance loss seconds MB
[ -z "$plain" ] || printf ' %12s %8s %8s' plain seconds MB
printf '\n'
realistic=$top/examples/realistic
tell realistic "$realistic/batch.csv" "$realistic/defects.csv" "$realistic/batch.csv" "$realistic/defects.csv"
while read -r start items defects; do
  awk -v start="$start" -v items="$items" -v defects="$defects" -v batch="$work/batch" -v faults="$work/defects" -f "$top/bench/drawn.awk"
  tell "$start $items $defects" "$work/batch" "$work/defects" gen "$start" "$items" "$defects"
done << 'END'
7 10 0
7 15 0
7 20 0
11 20 0
12 30 0
13 40 0
1 50 0
2 50 0
3 50 0
4 50 0
5 50 0
7 50 0
7 20 10
12 30 5
3 10 100
9 15 60
5 12 200
2 18 150
26 30 100
13 40 40
7 50 20
END
