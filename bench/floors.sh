#!/usr/bin/env bash
# Draws small instances, searches each with a small budget, asks `verify` which floor fronts show of it, and has it check certificates of version 3 that are
# made by hand from that: with the floor that is shown and with one that is one too high, closed for the floor where that is the plan's loss, and open
# where it is below. Prints of how many instances the answers are as they should be, and of how many the floor is the plan's loss, which is
# then proved to be the least. How many instances (300) may be given. The program is built first where it is not yet.
set -euo pipefail
top=$(cd "$(dirname "$(readlink -f "$0")")/.." && pwd)
. "$top/launcher.sh"
ready glass
work=$(mktemp -d)
trap 'rm -rf "$work"' EXIT
cd "$work"
runs() { "$@" || [ $? -le 2 ]; }
answer() {
  printf '%s\n' "$@" > floored
  "$program" verify batch defects plan floored || true
}
right=0 least=0 planned=0
count=${1:-300}
for ((start = 1; start <= count; start++)); do
  items=$((start % 9 + 1))
  defects=$((start % 7 * 10))
  awk -v start="$start" -v items="$items" -v defects="$defects" -v batch=batch -v faults=defects -f "$top/bench/drawn.awk"
  rm -f plan cert
  runs "$program" gen "$start" "$items" "$defects" plan cert --budget=100 > printed
  [ -e plan ] || continue
  planned=$((planned + 1))
  loss=$(awk '$1 == "loss" { print $2 }' printed)
  floor=$(answer "glasscert;3;$loss;$loss;0;18446744073709551615" 'C;f' | awk '$4 == "wrongfloor" { print $6 }')
  higher=$((floor + 1))
  if [ "$floor" = "$loss" ]; then
    least=$((least + 1))
    [ "$(answer "glasscert;3;$loss;$loss;0;$floor" 'C;f')" = "accepted bound $loss open 0" ] &&
      [ "$(answer "glasscert;3;$loss;$loss;0;$higher" 'C;f')" = "refused line 1 wrongfloor $higher $floor" ] && right=$((right + 1))
  elif [ "$floor" -lt "$loss" ]; then
    [ "$(answer "glasscert;3;$loss;$floor;1;$floor" 'O;1')" = "accepted bound $floor open 1" ] &&
      [ "$(answer "glasscert;3;$loss;$floor;0;$floor" 'C;f')" = "refused line 2 notclosed $floor $loss" ] &&
      [ "$(answer "glasscert;3;$loss;$higher;1;$higher" 'O;1')" = "refused line 1 wrongfloor $higher $floor" ] && right=$((right + 1))
  else
    echo "$start $items $defects: the floor $floor is above the loss $loss"
  fi
done
echo "$right of $planned as they should be; of $least the floor is the plan's loss"
