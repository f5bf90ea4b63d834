#!/usr/bin/env bash
# What more work for a first plan finds, on drawn instances (start, items, defects): the losses in mm² of the first plan and behind each wide beam, by how many millions of ticks were spent
# then, with processor seconds, seconds by the clock and memory. `same` says that these are the losses and ticks that a plain program came to, as far as it was run; the table has its numbers.
#
#   bench/effort.sh [MILLIONS [THREADS]]     300 millions and 1 thread where they are not given; with 1800 the table ends, and a run of it takes a quarter of an hour of one processor
#   bench/effort.sh --tick                   how long a tick of the first plan takes and one of the wide beams, by one thread
set -eu
top=$(cd "$(dirname "$(readlink -f "$0")")/.." && pwd)
book=$top/crates/effort_book/out/effort_book
[ -x "$book" ] || (cd "$top/crates/effort_book" && rt run) > /dev/null 2>&1
work=$(mktemp -d)
trap 'rm -rf "$work"' EXIT
if [ "${1:-}" = --tick ]; then
  instance='16 100 100'
  seconds() { echo "$instance $1 1" | /usr/bin/time -o "$work/figures" -f '%U' "$book" > "$work/found"; cat "$work/figures"; }
  first=$(seconds 0)
  all=$(seconds 1015)
  awk -v first="$first" -v all="$all" '
    NR == 2 { before = $1 }
    { after = $1 }
    END { printf "a tick of the first plan %.1f ns, of wide beams %.1f ns\n", 1000 * first / before, 1000 * (all - first) / (after - before) }' "$work/found"
  exit
fi
millions=${1:-300}
threads=${2:-1}
# the plain program's table: an instance, and behind it MILLIONS:LOSS for the first plan and each beam
while read -r start items defects trail; do
  echo "$start $items $defects $millions $threads" | /usr/bin/time -o "$work/figures" -f '%U %e %M' "$book" > "$work/found"
  read -r processor clock memory < "$work/figures"
  found=$(awk 'NR > 1 { printf "%s%s:%s", (NR > 2 ? " " : ""), $1, $2 }' "$work/found")
  said=$(awk -v trail="$trail" -v found="$found" 'BEGIN {
    n = split(trail, wanted, " "); m = split(found, got, " "); same = "same"
    for (i = 1; i <= n && i <= m; i++) if (wanted[i] != got[i]) same = "OTHERS, where the plain program has " trail
    print same }')
  echo "$start $items $defects: $found; $processor s of processors, $clock s by the clock, $((memory / 1024)) MB, $said"
done << 'TABLE'
7 50 20 30:2949668 284:2834108 584:2834108 872:2834108 1173:2834108 1458:2834108
7 100 30 30:4101044 296:4094624 612:4027214 929:4027214 1256:4027214 1577:4027214
16 100 100 30:4594743 300:4337943 654:4337943 1005:4337943 1360:4337943 1720:4232013
34 110 60 33:4327533 299:3907023 631:3907023 964:3907023 1290:3907023 1603:3907023
17 120 10 36:3842483 300:3515063 639:3515063 979:3489383 1309:3450863 1640:3450863
18 150 0 45:4394611 300:3983731 711:3983731 1121:3983731 1509:3983731
19 150 50 45:5977449 296:5910039 768:5492739 1237:5492739 1713:5492739
36 160 40 48:5709237 300:5208477 780:5208477 1280:5189217
51 180 20 54:5182582 300:5102332 794:4986772 1317:4986772
7 200 60 60:6416440 108:6368290 138:6175690 167:6175690 172:6175690 177:6175690 577:5989510 673:5989510 732:5989510 790:5989510 794:5989510 799:5989510 1472:5890000 1616:5890000 1705:5890000 1793:5890000
20 200 200 60:12700882 107:12700882 137:11991472 165:11991472 195:11969002 219:11969002 608:11969002 696:11969002 753:11969002 812:11969002 870:11969002 920:11949742 1639:11606272 1772:11606272
37 220 80 65:8051149 118:8028679 150:7604959 180:7518289 210:7518289 239:7518289 639:7277539 747:7277539 808:7277539 868:7235809 928:7235809 988:7219759 1769:7088149
21 250 0 72:6397436 136:6018656 176:6018656 205:6018656 229:6018656 252:6018656 653:5713706 776:5713706 853:5713706 913:5713706 914:5713706 915:5713706 1669:5601356
22 300 100 85:10761701 152:10331561 197:10068341 227:9959201 256:9853271 256:9853271 655:9853271 789:9853271 881:9853271 940:9853271 998:9853271 1798:8880641
3 400 100 110:11796164 199:11587514 260:11324294 290:11295404 320:11199104 350:11199104 726:11199104 904:11199104 1025:11199104 1084:11199104
5 700 150 185:19438947 274:19288077 320:19288077 348:19288077 378:19288077 748:18122847 1015:18122847 1753:18016917
TABLE
