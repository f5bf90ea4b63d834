#!/usr/bin/env bash
# Draws small instances, searches each with a small budget, has `verify` check what was stored, and `convert` the certificate with its causes
# taken away: prints of how many instances the accepted bound and number of open boxes are those that were printed, and the converted
# certificate is the one that was stored. How many instances (1000) may be given, and behind that `--fronts`: then `convert` is given a certificate of version 3 as it
# is, and where no box is open in one, `verify` has to refuse a floor that is one too high. The program is built first where it is not yet.
set -euo pipefail
top=$(cd "$(dirname "$(readlink -f "$0")")/.." && pwd)
. "$top/launcher.sh"
ready glass
work=$(mktemp -d)
trap 'rm -rf "$work"' EXIT
cd "$work"
runs() { "$@" || [ $? -le 2 ]; }
agree=0 floors=0
count=${1:-1000}
fronts=("${@:2}")
# Whether a floor that is one too high is refused, or nothing has to be.
refuses() {
  [ "$version" = 3 ] && grep -q '^open 0$' printed || return 0
  floors=$((floors + 1))
  awk -F ';' -v OFS=';' 'NR == 1 { $6 += 1 } { print }' CONVFMT=%d OFMT=%d cert > higher
  local floor
  floor=$(awk -F ';' 'NR == 1 { print $6 }' cert)
  [ "$("$program" verify batch defects "$plan" higher || true)" = "refused line 1 wrongfloor $((floor + 1)) $floor" ]
}
for ((start = 1; start <= count; start++)); do
  items=$((start % 9 + 1))
  defects=$((start % 7 * 10))
  budget=$((start % 5 * 400 + 1))
  awk -v start="$start" -v items="$items" -v defects="$defects" -v batch=batch -v faults=defects -f "$top/bench/drawn.awk"
  rm -f plan cert
  runs "$program" gen "$start" "$items" "$defects" plan cert --budget="$budget" "${fronts[@]}" > printed
  plan=plan
  [ -e plan ] || plan=-
  wanted=$(awk '$1 == "bound" { bound = $2 } $1 == "open" { print "accepted bound " bound " open " $2 }' printed)
  version=$(awk -F ';' 'NR == 1 { print $2 }' cert)
  awk -F ';' -v version="$version" '
    version == 3 { print; next }
    NR == 1 { print $1 ";1;" $3 ";" $4 ";" $5; next }
    $1 == "C" { print "C"; next }
    $1 == "O" { for (k = 0; k < $2; k++) print "O"; next }
    { print }' cert > bare
  if [ "$("$program" verify batch defects "$plan" cert)" = "$wanted" ] &&
    [ "$("$program" verify batch defects "$plan" bare)" = "$wanted" ] &&
    [ "$("$program" convert batch defects "$plan" bare named)" = "converted${wanted#accepted}" ] &&
    cmp -s cert named && refuses; then
    agree=$((agree + 1))
  else
    echo "$start $items $defects, budget $budget: $(tr '\n' ' ' < printed)"
  fi
done
echo "$agree of $count agree${fronts:+; of $floors a floor that is one too high was refused, unless one is told above}"
