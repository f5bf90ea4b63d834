#!/usr/bin/env bash
# Prints how long a trace of 800 steps takes against 20,000 defects, spread over all plates and then all on one. The trace is a case of a
# book, so the time has two parts: reading the case, which is printed first for the same items and defects without a step, and the rules.
set -eu
top=$(cd "$(dirname "$(readlink -f "$0")")/.." && pwd)
book=$top/crates/trace_book/out/trace_book
[ -x "$book" ] || (cd "$top/crates/trace_book" && rt run) > /dev/null
work=$(mktemp -d)
trap 'rm -rf "$work"' EXIT
# eight strips of 600 mm on each of 100 plates, each 100 mm behind the one before; the last cut runs through a defect, so that all rules are
# asked at all steps and no plan is made
tell() {
  awk -v steps="$1" -v plates="$2" 'BEGIN {
    print "case 800 steps"
    for (k = 0; k < 800; k++) print "item " k ";600;1000;0;" k
    for (k = 0; k < 19999; k++) {
      r = int(k / plates)
      print "defect " k ";" k % plates ";" 605 + 700 * (r % 8) + int(r / 8) % 90 ";" 1500 + int(r / 720) ";1;1"
    }
    print "defect 19999;99;5490;3000;20;1"
    for (k = 0; k < steps; k++) print "step 0 0 " (k % 8 ? 1 : 0) " 0 " 700 * (k % 8) " " 700 * (k % 8) + 600 " 0 1000 " 700 * (k % 8)
    print steps ? "breaks 9 799" : "meets"
  }'
}
TIMEFORMAT='%R s'
for plates in 100 1; do
  for steps in 0 800; do
    tell "$steps" "$plates" > "$work/book"
    echo "$steps steps, 20,000 defects on $plates plates"
    time "$book" < "$work/book"
  done
done
