#!/usr/bin/env bash
# Draws 100 small instances and searches each ten times with eight workers: prints of how many runs `verify` accepts what was stored, with
# the printed bound and number of open boxes, and of how many instances that were solved to the end in each run the loss was the same in
# each. How many instances (100) and how many workers (8) may be given. The program is built first where it is not yet.
set -euo pipefail
top=$(cd "$(dirname "$(readlink -f "$0")")/.." && pwd)
. "$top/launcher.sh"
ready glass
work=$(mktemp -d)
trap 'rm -rf "$work"' EXIT
cd "$work"
runs() { "$@" || [ $? -le 2 ]; }
count=${1:-100}
workers=${2:-8}
accepted=0
solved=0
alike=0
for ((start = 1; start <= count; start++)); do
  items=$((start % 4 + 1))
  defects=$((start % 7 * 5))
  awk -v start="$start" -v items="$items" -v defects="$defects" -v batch=batch -v faults=defects -f "$top/bench/drawn.awk"
  : > ends
  for _ in 1 2 3 4 5 6 7 8 9 10; do
    rm -f plan cert
    runs "$program" plan batch defects plan cert --budget=200000 --workers="$workers" > printed
    plan=plan
    [ -e plan ] || plan=-
    wanted=$(awk '$1 == "bound" { bound = $2 } $1 == "open" { print "accepted bound " bound " open " $2 }' printed)
    if [ "$("$program" verify batch defects "$plan" cert)" = "$wanted" ]; then
      accepted=$((accepted + 1))
    else
      echo "$start $items $defects: $(tr '\n' ' ' < printed)"
    fi
    awk '$1 == "status" { status = $2 } $1 == "loss" { print status, $2 }' printed >> ends
  done
  if ! grep -q stopped ends; then
    solved=$((solved + 1))
    [ "$(sort -u ends | wc -l)" -eq 1 ] && alike=$((alike + 1))
  fi
done
echo "$accepted of $((count * 10)) runs accepted; $alike of $solved instances that were solved to the end in each run have one loss"
