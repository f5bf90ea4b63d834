#!/usr/bin/env bash
# Kills a search (kill -9) at random moments, 200 times if no other number is given: one half at any moment of the run, one half up to
# 30 ms behind the moment at which it begins to store. Prints how often OUT and CERT held the old bytes, the new ones, or anything else, and how many new files were left beside
# them. Then what becomes of a store that the system cuts short, by a limit on the size of files. The program is built first where it
# is not yet.
set -euo pipefail
top=$(cd "$(dirname "$(readlink -f "$0")")/.." && pwd)
. "$top/launcher.sh"
ready glass
kills=${1:-200}
work=$(mktemp -d)
trap 'rm -rf "$work"' EXIT
out=$work/plan.csv
cert=$work/cert.txt
# status 1 is that of a search that its budget stopped
search() { "$program" gen 7 16 5 "$out" "$cert" --workers=1 --budget=2000000 > "$work/printed" || [ $? -eq 1 ]; }
# a number from $1 on, below $2, as seconds in thousandths
moment() { awk -v least="$1" -v most="$2" -v random="$RANDOM" 'BEGIN { printf "%.3f", (least + (most - least) * random / 32768) / 1000 }'; }
begin() {
  cp "$work/old_plan" "$out"
  cp "$work/old_cert" "$cert"
  "$program" gen 7 16 5 "$out" "$cert" --workers=1 --budget=2000000 > "$work/printed" &
  run=$!
}
# kills the run, if it has not ended, and counts what is there then
end() {
  if kill -9 "$run" 2> "$work/told"; then killed=$((killed + 1)); fi
  wait "$run" 2> "$work/told" || true
  for of in plan cert; do
    file=$out
    if [ "$of" = cert ]; then file=$cert; fi
    is=other
    if cmp -s "$file" "$work/old_$of"; then is=old; fi
    if cmp -s "$file" "$work/new_$of"; then is=new; fi
    count[$of $is]=$((${count[$of $is]:-0} + 1))
    shopt -s nullglob
    left=("$work/.${file##*/}".glass-*)
    shopt -u nullglob
    count[$of left]=$((${count[$of left]:-0} + ${#left[@]}))
    rm -f "${left[@]}"
  done
}
tell() {
  echo "$1: $killed killed"
  for of in plan cert; do
    echo "  $of: old ${count[$of old]:-0}, new ${count[$of new]:-0}, anything else ${count[$of other]:-0}; new files left: ${count[$of left]:-0}"
  done
}
"$top/glass" draft "$top/examples/tiny/batch.csv" "$out" > "$work/printed"
seq 100000 > "$work/old_plan"
seq 300000 > "$work/old_cert"
start=$(date +%s%N)
search
spent=$((($(date +%s%N) - start) / 1000000))
mv "$out" "$work/new_plan"
mv "$cert" "$work/new_cert"
echo "a run takes $spent ms; the plan has $(wc -c < "$work/new_plan") bytes, the certificate $(wc -c < "$work/new_cert")"

killed=0
declare -A count=()
for ((n = 0; n < kills / 2; n++)); do
  begin
  sleep "$(moment 0 "$spent")"
  end
done
tell "at any moment"

killed=0
count=()
for ((n = 0; n < kills - kills / 2; n++)); do
  begin
  later=$(moment 0 30)
  until [ -e "$work/.plan.csv.glass-0" ] || [ -e "$work/.cert.txt.glass-0" ] || ! kill -0 "$run" 2> "$work/told"; do :; done
  sleep "$later"
  end
done
tell "while it stores"

cp "$work/old_plan" "$out"
status=0
(
  trap '' XFSZ
  ulimit -f 1
  exec "$program" draft "$top/examples/realistic/batch.csv" "$out"
) > "$work/printed" 2>&1 || status=$?
is=changed
if cmp -s "$out" "$work/old_plan"; then is=old; fi
echo "cut short after 1,024 bytes: status $status, plan $is, new files left: $(find "$work" -name '.*.glass-*' | wc -l)"
