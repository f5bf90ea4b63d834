# Writes a drawn instance of glass_gen: -v start=START -v items=ITEMS -v defects=DEFECTS give its numbers, -v batch=FILE -v faults=FILE the
# two files.
function draw(n) { x = (1664525 * x + 1013904223) % 4294967296; return int(x / 65536) % n }
BEGIN {
  x = start
  print "ITEM_ID;LENGTH_ITEM;WIDTH_ITEM;STACK;SEQUENCE" > batch
  for (k = 0; k < items; k++) {
    length_mm = 200 + draw(1300); width_mm = 150 + draw(850); stack = draw(1 + int(items / 20))
    printf "%d;%d;%d;%d;%d\n", k, length_mm, width_mm, stack, k > batch
  }
  print "DEFECT_ID;PLATE_ID;X;Y;WIDTH;HEIGHT" > faults
  for (k = 0; k < defects; k++) {
    plate = draw(10); left = draw(5900); low = draw(3100); wide = 5 + draw(20); high = 5 + draw(20)
    printf "%d;%d;%d;%d;%d;%d\n", k, plate, left, low, wide, high > faults
  }
}
