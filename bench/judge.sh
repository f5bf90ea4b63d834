#!/usr/bin/env bash
# Prints how long `judge` takes: a plan of 800 items with 20,000 defects in its wastes, and plan files of some 4 MB that are read, or
# refused at their last row, in several orders and shapes. The processor is held to one core.
set -eu
top=$(cd "$(dirname "$(readlink -f "$0")")/.." && pwd)
work=$(mktemp -d)
trap 'rm -rf "$work"' EXIT
awk -f "$top/bench/items.awk" > "$work/batch.csv"
echo 'name;value' > "$work/params.csv"
echo 'nPlates;1000' >> "$work/params.csv"
echo 'DEFECT_ID;PLATE_ID;X;Y;WIDTH;HEIGHT' > "$work/none.csv"
"$top/glass" draft "$work/batch.csv" "$work/plan.csv" --params="$work/params.csv"
# 20,000 defects of 1 by 1 inside the wastes, where they break no rule
awk -F';' '
  BEGIN { n = 0 }
  NR > 1 && $7 == -1 && $5 >= 20 && $6 >= 20 { plate[n] = $1; left[n] = $3; low[n] = $4; wide[n] = $5; high[n] = $6; n++ }
  END {
    print "DEFECT_ID;PLATE_ID;X;Y;WIDTH;HEIGHT"
    for (k = 0; k < 20000; k++) {
      w = k % n; r = int(k / n)
      printf "%d;%d;%d;%d;1;1\n", k, plate[w], left[w] + 1 + r % (wide[w] - 2), low[w] + 1 + int(r / (wide[w] - 2)) % (high[w] - 2)
    }
  }' "$work/plan.csv" > "$work/defects.csv"
header='PLATE_ID;NODE_ID;X;Y;WIDTH;HEIGHT;TYPE;CUT;PARENT'
# many wastes of width 0 on one plate, in rows that name one parent
awk -v header="$header" 'BEGIN { print header; print "0;0;0;0;6000;3210;-2;0;"; for (k = 1; k < 157000; k++) print "0;" k ";0;0;0;3210;-1;1;0" }' > "$work/flat.csv"
# many plates without a strip
awk -v header="$header" 'BEGIN { print header; for (k = 0; k < 129000; k++) print k ";" k ";0;0;6000;3210;-2;0;" }' > "$work/plates.csv"
# many items that are cut again and again, with node numbers that fall
awk -v header="$header" 'BEGIN { print header; print "0;999999999;0;0;6000;3210;-2;0;"; for (k = 1; k < 100000; k++) print "0;" 999999999 - k ";0;0;0;3210;" k ";1;999999999" }' > "$work/items.csv"
# the same, refused in its last row
cp "$work/items.csv" "$work/late.csv"
echo '0;5;0;0;0;3210;7;1;4' >> "$work/late.csv"
# strips, bands and cells, each with one child
awk -v header="$header" 'BEGIN {
  print header
  for (k = 0; k < 32000; k++) {
    n = 4 * k
    print k ";" n ";0;0;6000;3210;-2;0;"; print k ";" n + 1 ";0;0;9;3210;-2;1;" n; print k ";" n + 2 ";0;0;9;9;-2;2;" n + 1; print k ";" n + 3 ";0;0;9;9;-1;3;" n + 2
  }
}' > "$work/deep.csv"
# ten plates of small wastes that keep all rules on cuts, and 20,000 defects of 1 by 1 inside the wastes of the last of them, or of all
awk -v header="$header" '
  function row(x, y, w, h, type, cut, parent) { print plate ";" node ";" x ";" y ";" w ";" h ";" type ";" cut ";" parent; return node++ }
  BEGIN {
    print header
    node = 0
    for (plate = 0; plate < 10; plate++) {
      top = row(0, 0, 6000, 3210, -2, 0, "")
      for (s = 0; s < 60; s++) {
        strip = row(100 * s, 0, 100, 3210, -2, 1, top)
        for (b = 0; b < 32; b++) {
          high = b < 31 ? 100 : 110
          band = row(100 * s, 100 * b, 100, high, -2, 2, strip)
          for (c = 0; c < 5; c++) row(100 * s + 20 * c, 100 * b, 20, high, -1, 3, band)
        }
      }
    }
  }' > "$work/crowded.csv"
for plates in 1 10; do
  awk -v plates="$plates" 'BEGIN {
    print "DEFECT_ID;PLATE_ID;X;Y;WIDTH;HEIGHT"
    for (k = 0; k < 20000; k++) {
      c = int(k / plates)
      print k ";" 9 - k % plates ";" 20 * (c % 300) + 3 ";" 100 * (int(c / 300) % 32) + 3 + 2 * int(c / 9600) ";1;1"
    }
  }' > "$work/crowd-$plates.csv"
done
TIMEFORMAT='%R s'
echo "crowded: $(wc -c < "$work/crowded.csv") bytes, 20000 defects on one plate, and on ten"
for plates in 1 10; do
  time taskset -c 0 "$top/glass" judge "$work/batch.csv" "$work/crowd-$plates.csv" "$work/crowded.csv" --params="$work/params.csv" || true
done
echo "800 items, 20000 defects"
time taskset -c 0 "$top/glass" judge "$work/batch.csv" "$work/defects.csv" "$work/plan.csv" --params="$work/params.csv" || true
for file in flat plates items late deep; do
  echo "$file: $(wc -c < "$work/$file.csv") bytes"
  time taskset -c 0 "$top/glass" judge "$work/batch.csv" "$work/none.csv" "$work/$file.csv" || true
done
