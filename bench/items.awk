# Writes a batch of 800 items: sides from 150 to 1499 mm in 41 stacks, from a fixed linear congruential generator.
function draw(n) { x = (1664525 * x + 1013904223) % 4294967296; return int(x / 65536) % n }
BEGIN {
  x = 7
  print "ITEM_ID;LENGTH_ITEM;WIDTH_ITEM;STACK;SEQUENCE"
  for (k = 0; k < 800; k++) {
    length_mm = 200 + draw(1300); width_mm = 150 + draw(850); stack = draw(41)
    printf "%d;%d;%d;%d;%d\n", k, length_mm, width_mm, stack, k
  }
}
