#!/usr/bin/env bash
# Draws instances of 41 to 60 items, and has chains of four commands behind a first `plan` go on from what was stored: `plan --from`, `resume` and `freeze`, with efforts, fronts, budgets and
# numbers of workers. Prints how many of these chains are right: `verify` accepts what each step stored, with the printed bound and number of open boxes, behind the frozen plates where there
# are some; no step loses more than the one before it, nor less than its bound; one that stopped has handled its budget, beside the boxes of the certificate that it goes on from; and one that
# did not leaves no box open and has its loss as bound. How many chains (300) and the first start (1) may be given. The program is built first where it is not yet.
set -euo pipefail
top=$(cd "$(dirname "$(readlink -f "$0")")/.." && pwd)
. "$top/launcher.sh"
ready glass
work=$(mktemp -d)
trap 'rm -rf "$work"' EXIT
cd "$work"
runs() { "$@" || [ $? -le 2 ]; }
# what the six lines say
tell() { read -r status loss bound plates boxes open <<< "$(awk '{ printf "%s ", $2 }' printed)"; }
# whether what was stored as plan$1 and cert$1 is right behind a loss of $2 and $3 boxes, with the budget $4 and $5 frozen plates
is_right() {
  local frozen=()
  [ "$5" = 0 ] || frozen=("--frozen=$5")
  [ "$("$program" verify batch defects "plan$1" "cert$1" "${frozen[@]}")" = "accepted bound $bound open $open" ] || return 1
  [ "$2" = none ] || [ "$loss" -le "$2" ] || return 1
  [ "$bound" -le "$loss" ] || return 1
  if [ "$status" = stopped ]; then
    [ "$open" -gt 0 ] && [ "$boxes" -eq $(($3 + $4)) ]
  else
    [ "$open" -eq 0 ] && [ "$boxes" -le $(($3 + $4)) ] && [ "$bound" = "$loss" ]
  fi
}
# the options of a step: each third effort is one that beams spend, now and then a second of the clock is given, and each seventh step asks fronts
options() {
  more=("--budget=$1" "--workers=$((1 << (start + step) % 4))")
  case $(((start + 2 * step) % 6)) in
    0 | 3) more+=("--effort=$((1 + start % 299))") ;;
    1) [ $((start % 4)) != 0 ] || more+=(--effort=300) ;;
    4) [ $((start % 3)) != 0 ] || more+=(--seconds=1) ;;
  esac
  [ $(((start + 3 * step) % 7)) != 0 ] || more+=(--fronts)
}
goes_right() {
  rm -f plan* cert*
  step=0
  runs "$program" plan batch defects plan0 cert0 --budget=$((start % 50 + 1)) > printed
  tell
  is_right 0 none 0 $((start % 50 + 1)) 0 || return 1
  # whether the certificate is one of all plates
  whole=yes
  for ((step = 1; step <= 4; step++)); do
    budget=$(((start * 131 + step * 367) % 1000 + 1))
    old_loss=$loss
    old_boxes=0
    frozen=0
    before=$((step - 1))
    steps=$((steps + 1))
    case $(((start + step) % 3)) in
      0) if [ $whole = yes ] && [ "$status" = stopped ]; then kind=resume; else kind=plan; fi ;;
      1) if [ "$plates" -gt 1 ]; then kind=freeze; else kind=plan; fi ;;
      *) kind=plan ;;
    esac
    options "$budget"
    case $kind in
      resume)
        old_boxes=$boxes
        runs "$program" resume batch defects "plan$before" "cert$before" "plan$step" "cert$step" "${more[@]}" > printed
        ;;
      freeze)
        frozen=$((plates - 1))
        whole=no
        runs "$program" freeze "$frozen" batch defects "plan$before" "plan$step" "cert$step" "${more[@]}" > printed
        ;;
      plan)
        whole=yes
        runs "$program" plan batch defects "plan$step" "cert$step" "--from=plan$before" "${more[@]}" > printed
        ;;
    esac
    kinds[$kind]=$((kinds[$kind] + 1))
    tell
    [ "$loss" = "$old_loss" ] || better=$((better + 1))
    is_right "$step" "$old_loss" "$old_boxes" "$budget" "$frozen" || return 1
  done
}
declare -A kinds=([resume]=0 [freeze]=0 [plan]=0)
right=0
steps=0
better=0
count=${1:-300}
first=${2:-1}
for ((start = first; start < first + count; start++)); do
  items=$((41 + start * 7 % 20))
  defects=$((start * 5 % 21))
  awk -v start="$start" -v items="$items" -v defects="$defects" -v batch=batch -v faults=defects -f "$top/bench/drawn.awk"
  if goes_right; then
    right=$((right + 1))
  else
    echo "$start $items $defects, step $step: $(tr '\n' ' ' < printed)"
  fi
done
echo "$right of $count chains are right; $steps steps behind the first (${kinds[plan]} plan, ${kinds[resume]} resume, ${kinds[freeze]} freeze), of which $better lose less than the one before"
