#!/usr/bin/env bash
# Prints the first plans of a table of instances: their loss in mm², the share of the glass that is lost, and how long they took, with
# reading, the draft, and the plan's text. Each line of the table is the start, the number of items and the number of defects of an
# instance that is drawn; START ITEMS DEFECTS as arguments ask for another one.
set -eu
top=$(cd "$(dirname "$(readlink -f "$0")")/.." && pwd)
book=$top/crates/trace_book/out/trace_book
[ -x "$book" ] || (cd "$top/crates/trace_book" && rt run) > /dev/null
work=$(mktemp -d)
trap 'rm -rf "$work"' EXIT
TIMEFORMAT='%R'
# says that there is no first plan, so that the book tells of the one that there is
tell() {
  printf 'case a first plan\ndrawn %s\nfirst\nnone\n' "$*" > "$work/book"
  seconds=$( { time "$book" < "$work/book" > "$work/found" || true; } 2>&1 )
  awk -v instance="$*" -v seconds="$seconds" '
    $1 == "length" { length_mm = $2 }
    $1 == "loss" { loss = $2 }
    END {
      if (length_mm) printf "%-12s loss %9d  lost %4.1f %%  %s s\n", instance, loss, 100 * loss / (3210 * length_mm), seconds
      else printf "%-12s no first plan  %s s\n", instance, seconds
    }' "$work/found"
}
if [ $# -gt 0 ]; then
  tell "$@"
  exit
fi
while read -r instance; do
  tell $instance
done << 'TABLE'
7 20 10
7 50 20
7 100 30
7 200 60
3 400 100
5 700 150
11 20 0
12 30 5
13 40 40
14 60 0
15 80 20
16 100 100
17 120 10
18 150 0
19 150 50
20 200 200
21 250 0
22 300 100
23 500 0
24 600 300
25 700 0
26 30 100
TABLE
