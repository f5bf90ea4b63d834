#!/usr/bin/env bash
# Draws small instances, searches each with a small budget, and has `resume` go on from what was stored, up to six times, with other budgets
# and other numbers of workers. Prints how many of these chains are right: `verify` accepts what each step stored, with the printed bound and
# number of open boxes; no step loses more than the one before it; one that stopped has handled its budget beside the boxes before it, to the box;
# one that did not leaves no box open and has its loss as bound; and a chain that came to its end has the loss of one whole search. How many
# chains (300) may be given. The program is built first where it is not yet.
set -euo pipefail
top=$(cd "$(dirname "$(readlink -f "$0")")/.." && pwd)
. "$top/launcher.sh"
ready glass
work=$(mktemp -d)
trap 'rm -rf "$work"' EXIT
cd "$work"
runs() { "$@" || [ $? -le 2 ]; }
# what the six lines say
tell() { read -r status loss bound _ boxes open <<< "$(awk '{ printf "%s ", $2 }' printed)"; }
# whether step $1 is right behind a loss of $2 and $3 boxes, with the budget $4
is_right() {
  plan=plan$1
  [ -e "$plan" ] || plan=-
  [ "$("$program" verify batch defects "$plan" "cert$1")" = "accepted bound $bound open $open" ] || return 1
  [ "$2" = none ] || { [ "$loss" != none ] && [ "$loss" -le "$2" ]; } || return 1
  if [ "$status" = stopped ]; then
    [ "$open" -gt 0 ] && [ "$boxes" -eq $(($3 + $4)) ]
  else
    [ "$open" -eq 0 ] && [ "$boxes" -le $(($3 + $4)) ] && [ "$bound" = "$loss" ]
  fi
}
# whether the chain from this start is right
goes_right() {
  rm -f plan* cert*
  runs "$program" gen "$start" "$items" "$defects" plan0 cert0 --budget=$((start % 50 + 1)) > printed
  tell
  is_right 0 none 0 $((start % 50 + 1)) || return 1
  for ((step = 1; step <= 6; step++)); do
    [ "$status" = stopped ] || break
    budget=$(((start * 131 + step * 367) % 1000 + 1))
    old_loss=$loss
    old_boxes=$boxes
    runs "$program" resume batch defects "$plan" cert$((step - 1)) "plan$step" "cert$step" \
      --budget="$budget" --workers=$((1 << (start + step) % 4)) > printed
    tell
    steps=$((steps + 1))
    is_right "$step" "$old_loss" "$old_boxes" "$budget" || return 1
  done
  [ "$status" != stopped ] || return 0
  ended=$((ended + 1))
  runs "$program" gen "$start" "$items" "$defects" whole whole_cert > whole_printed
  [ "$(sed -n 2p whole_printed)" = "loss $loss" ] && ! grep -q stopped whole_printed
}
right=0
steps=0
ended=0
count=${1:-300}
for ((start = 1; start <= count; start++)); do
  items=$((start % 8 + 1))
  defects=$((start * 5 % 21))
  awk -v start="$start" -v items="$items" -v defects="$defects" -v batch=batch -v faults=defects -f "$top/bench/drawn.awk"
  if goes_right; then
    right=$((right + 1))
  else
    echo "$start $items $defects, step ${step:-0}: $(tr '\n' ' ' < printed)"
  fi
done
echo "$right of $count chains are right; $ended came to their end, in $steps steps behind the first"
