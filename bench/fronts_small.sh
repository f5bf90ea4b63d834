#!/usr/bin/env bash
# Draws small instances (plates 8 to 24 mm high, 1 to 5 items, 0 to 5 defects), has `plan` search each to its end, and compares the loss of the best plan with the one
# of which fronts show that no plan loses less. Prints of how many it is above (which would be a mistake), and of how many equal. How many instances (2000) may be given, and the first
# number to draw from. The programs are built first where they are not yet.
set -euo pipefail
top=$(cd "$(dirname "$(readlink -f "$0")")/.." && pwd)
. "$top/launcher.sh"
ready glass
glass=$program
fronts=$top/crates/front_book/out/front_book
work=$(mktemp -d)
trap 'rm -rf "$work"' EXIT
cd "$work"
runs() { "$@" || [ $? -le 2 ]; }
count=${1:-2000}
first=${2:-1}
[ -x "$fronts" ] || (cd "$top/crates/front_book" && rt run < stdin) > built 2>&1
awk -v count="$count" -v first="$first" '
  function draw(n) { x = (1664525 * x + 1013904223) % 4294967296; return int(x / 65536) % n }
  BEGIN {
    for (k = first; k < first + count; k++) {
      x = k * 7919
      draw(2)
      height = 8 + draw(17); width = 10 + draw(21); plates = 1 + draw(4); waste = 1 + draw(3)
      least = waste + draw(3); greatest = least + 4 + draw(16); low = waste + draw(2)
      line = plates " " width " " height " " least " " greatest " " low " " waste " /"
      items = 1 + draw(5); stacks = 1 + draw(3)
      for (i = 0; i < items; i++) line = line " " 2 + draw(9) " " 2 + draw(9) " " draw(stacks)
      line = line " /"
      defects = draw(6)
      for (i = 0; i < defects; i++) line = line " " draw(2) " " draw(width - 1) " " draw(height - 1) " " 1 + draw(3) " " 1 + draw(3)
      sub(/ \/$/, "", line)
      print line
    }
  }' > lines
"$fronts" < lines > bounds
above=0
equal=0
ended=0
none=0
while IFS= read -r line; do
  bound=${line##*: }
  awk -v line="${line%: *}" 'BEGIN {
    split(line, part, " / "); split(part[1], p, " ")
    print "NAME;VALUE" > "params"
    split("nPlates widthPlates heightPlates min1Cut max1Cut min2Cut minWaste", name, " ")
    for (k = 1; k <= 7; k++) print name[k] ";" p[k] > "params"
    n = split(part[2], i, " "); print "ITEM_ID;LENGTH_ITEM;WIDTH_ITEM;STACK;SEQUENCE" > "batch"
    for (k = 0; k < n / 3; k++) printf "%d;%d;%d;%d;%d\n", k, i[3 * k + 1], i[3 * k + 2], i[3 * k + 3], k > "batch"
    n = split(part[3], d, " "); print "DEFECT_ID;PLATE_ID;X;Y;WIDTH;HEIGHT" > "defects"
    for (k = 0; k < n / 5; k++) printf "%d;%d;%d;%d;%d;%d\n", k, d[5 * k + 1], d[5 * k + 2], d[5 * k + 3], d[5 * k + 4], d[5 * k + 5] > "defects"
  }'
  rm -f plan cert
  runs "$glass" plan batch defects plan cert --params=params --budget=300000 > printed
  read -r status loss <<< "$(awk '{ printf "%s ", $2 }' printed | cut -d ' ' -f 1,2)"
  case $status in
    optimal)
      ended=$((ended + 1))
      if [ "$bound" -gt "$loss" ]; then
        above=$((above + 1))
        echo "$line, and a plan loses $loss"
      elif [ "$bound" -eq "$loss" ]; then
        equal=$((equal + 1))
      fi
      ;;
    infeasible) none=$((none + 1)) ;;
  esac
done < bounds
echo "$count drawn: $ended searched to their end, $none without a plan; the bound is above the loss of $above, and equal to that of $equal"
