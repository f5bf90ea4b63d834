#!/usr/bin/env bash
# Prints how many boxes the search handles in a second, with the joining of what the workers noted and without the certificate, on five drawn
# instances of 50 items and five of 200.
#
#   bench/boxes.sh [clock [BUDGET [ROUNDS]]]   by the clock, from the draft on, which takes a few milliseconds, so that the whole run is the
#                                              search: with 1, 2, 4 and 8 workers, with 4 on one processor (the same boxes without a second
#                                              one), and 4 searches with one worker each side by side (what the machine itself can do)
#   bench/boxes.sh samples [BUDGET [ROUNDS]]   from the first plan on, as the product searches, with 1, 4 and 8 workers, by the samples that
#                                              `perf record` takes, so that the first plan is left out: to the last box, and to the end
#   bench/boxes.sh processor [BUDGET [ROUNDS]] in a second of processor time, from the draft on, with one worker
#
# Several workers handle other boxes than one does, and on one instance these can cost half as much again or less; so the times of the five
# instances are added up. The time of an instance is the least and the middle one of ROUNDS (3) runs, in an order that is drawn anew in each
# round, since a machine that others use is not quiet for long. BUDGET is 3,200,000 boxes where none is given. Nothing else should run
# beside it. The program is proved and built first, which takes some minutes where crates changed.
set -euo pipefail
top=$(cd "$(dirname "$(readlink -f "$0")")/.." && pwd)
measure=${1:-clock}
budget=${2:-3200000}
rounds=${3:-3}
case $measure in
  clock) kinds='1 2 4 8 alone side'; columns='whole' ;;
  samples) kinds='1 4 8'; columns='to-the-last-box to-the-end' ;;
  processor) kinds='1'; columns='processor-time' ;;
  *) echo "clock, samples or processor" >&2; exit 2 ;;
esac
work=$(mktemp -d)
trap 'rm -rf "$work"' EXIT
(cd "$top/crates/box_speed" && rt run < stdin) > "$work/built" 2>&1 || { tail -20 "$work/built"; exit 1; }
program=$top/crates/box_speed/out/box_speed
# the seconds by the clock of so many searches of an instance at once, by so many workers each, with the words in front of the command
clock() {
  local instance=$1 workers=$2 searches=$3
  shift 3
  TIMEFORMAT=%R
  { time {
    for ((run = 0; run < searches; run++)); do
      echo "drafted $instance $budget $workers" | "$@" "$program" > "$work/told$run" &
    done
    wait
  }; } 2>&1
}
# the seconds from the first box to the last, and to the end of the program
samples() {
  echo "search $1 $budget $2" | perf record -F 400 -o "$work/samples" "$program" > "$work/told" 2>&1
  perf script -i "$work/samples" -F time,ip,sym --no-demangle 2> "$work/told" | awk '
    { time = $1 + 0; if (time > end) end = time }
    /handling::|turning::|running::|working::|box_bound::/ { if (!first || time < first) first = time; if (time > last) last = time }
    END { printf "%.3f,%.3f\n", last - first, end - first }'
}
# the seconds of processor time
processor() {
  TIMEFORMAT='%U %S'
  { time "$program" <<< "drafted $1 $budget 1" > "$work/told"; } 2>&1 | awk '{ print $1 + $2 }'
}
seconds() {
  case $measure,$2 in
    clock,side) clock "$1" 1 4 ;;
    clock,alone) clock "$1" 4 1 taskset -c 0 ;;
    clock,*) clock "$1" "$2" 1 ;;
    samples,*) samples "$1" "$2" ;;
    processor,*) processor "$1" ;;
  esac
}
echo "$(nproc) processors"
for ((round = 0; round < rounds; round++)); do
  for start in 1 2 3 7 12; do
    for drawn in '50 20' '200 60'; do
      for kind in $kinds; do echo "$start $drawn,$kind"; done
    done
  done | shuf | while IFS=, read -r instance kind; do
    echo "$instance,$kind,$(seconds "$instance" "$kind" < /dev/null)"
  done
done > "$work/times"
for items in 50 200; do
  column=3
  for name in $columns; do
    sort -t, -k1,2 -k"$column,${column}n" "$work/times" | awk -F, -v items="$items" -v column="$column" -v budget="$budget" -v name="$name" -v kinds="$kinds" '
      { split($1, drawn, " "); if (drawn[2] != items) next; run = $1 "," $2; kind[run] = $2; took[run, ++runs[run]] = $column }
      END {
        for (run in runs) {
          least[kind[run]] += took[run, 1]
          middle[kind[run]] += took[run, int((runs[run] + 1) / 2)]
        }
        gsub("-", " ", name)
        count = split(kinds, order, " ")
        for (at = 1; at <= count; at++) {
          key = order[at]
          by = key == "alone" ? "4 workers on one processor" : key == "side" ? "4 searches side by side" : key == 1 ? "1 worker" : key " workers"
          searches = key == "side" ? 4 : 1
          if (middle[key] > 0)
            printf "%d items, %s: %s, least %.2f s, middle %.2f s: %d boxes in a second, %.2f and %.2f times those of one worker\n", items, name, by, least[key], middle[key], searches * 5 * budget / middle[key], searches * least[1] / least[key], searches * middle[1] / middle[key]
        }
      }'
    column=$((column + 1))
  done
done
