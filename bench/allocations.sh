#!/usr/bin/env bash
# Refuses each allocation of `plan`, `verify`, `resume`, `freeze` and `sheet` on an instance of one item in turn, and of `gen --effort` on one of three, and tells of each command
# how many were refused and how the runs ended: with status 8, each file that is stored being absent, as before or whole; or as ever, where
# the program does without that memory. Anything else is printed and ends the script with 1. The program is built once, as `glass` builds it;
# a library that is loaded before the system's counts the allocations and refuses one.
set -eu
top=$(cd "$(dirname "$(readlink -f "$0")")/.." && pwd)
work=$(mktemp -d)
trap 'rm -rf "$work"' EXIT
cat > "$work/refuse.c" <<'C'
#include <errno.h>
#include <fcntl.h>
#include <stdatomic.h>
#include <stddef.h>
#include <stdlib.h>
#include <unistd.h>
extern void *__libc_malloc(size_t);
extern void *__libc_calloc(size_t, size_t);
extern void *__libc_realloc(void *, size_t);
extern void *__libc_memalign(size_t, size_t);
static atomic_long asked;
static long refused;
__attribute__((constructor)) static void begin(void) {
  const char *at = getenv("REFUSED");
  refused = at ? atol(at) : 0;
}
/* Whether this allocation is the one that is refused; then the file `reached` says so. */
static int refuses(void) {
  if (refused == 0 || atomic_fetch_add(&asked, 1) + 1 != refused) return 0;
  int file = open("reached", O_CREAT | O_WRONLY, 0600);
  if (file >= 0) close(file);
  errno = ENOMEM;
  return 1;
}
void *malloc(size_t n) { return refuses() ? NULL : __libc_malloc(n); }
void *calloc(size_t n, size_t m) { return refuses() ? NULL : __libc_calloc(n, m); }
void *realloc(void *p, size_t n) { return refuses() ? NULL : __libc_realloc(p, n); }
void *aligned_alloc(size_t a, size_t n) { return refuses() ? NULL : __libc_memalign(a, n); }
void *memalign(size_t a, size_t n) { return refuses() ? NULL : __libc_memalign(a, n); }
int posix_memalign(void **p, size_t a, size_t n) {
  if (refuses()) return ENOMEM;
  *p = __libc_memalign(a, n);
  return *p ? 0 : ENOMEM;
}
C
gcc -O2 -shared -fPIC -o "$work/refuse.so" "$work/refuse.c"
. "$top/launcher.sh"
ready glass
cd "$work"
printf 'ITEM_ID;LENGTH_ITEM;WIDTH_ITEM;STACK;SEQUENCE\n0;500;300;0;1\n' > one.csv
printf 'ITEM_ID;LENGTH_ITEM;WIDTH_ITEM;STACK;SEQUENCE\n0;500;300;0;1\n1;3000;3210;1;1\n2;3000;3210;2;1\n' > three.csv
printf 'DEFECT_ID;PLATE_ID;X;Y;WIDTH;HEIGHT\n' > none.csv
"$top/glass" plan one.csv none.csv plan.csv cert.txt --workers=1 > printed || [ $? -eq 0 ]
"$top/glass" plan one.csv none.csv part.csv part.txt --workers=1 --budget=3 > printed || [ $? -eq 1 ]
"$top/glass" plan three.csv none.csv two.csv two.txt --workers=1 --budget=1 > printed || [ $? -le 1 ]
failed=0

# try_all NAME "the files that it stores" WORDS..
try_all() {
  local name=$1 outs=$2
  shift 2
  local f status usual ended n eights=0 same=0
  for f in $outs; do printf 'old\n' > "$f"; done
  usual=0
  "$program" "$@" > usual || usual=$?
  for f in $outs; do cp "$f" "$f.whole"; done
  for ((n = 1; ; n++)); do
    for f in $outs; do printf 'old\n' > "$f"; done
    rm -f reached
    status=0
    REFUSED=$n LD_PRELOAD=$work/refuse.so "$program" "$@" > printed || status=$?
    if [ ! -e reached ]; then break; fi
    ended=wrong
    if [ "$status" -eq 8 ]; then
      ended=eight
      for f in $outs; do
        if [ -e "$f" ] && ! cmp -s "$f" "$f.whole" && [ "$(cat "$f")" != old ]; then ended=wrong; fi
      done
      if [ -s printed ]; then ended=wrong; fi
    elif [ "$status" -eq "$usual" ] && cmp -s printed usual; then
      ended=same
      for f in $outs; do cmp -s "$f" "$f.whole" || ended=wrong; done
    fi
    case $ended in
      eight) eights=$((eights + 1)) ;;
      same) same=$((same + 1)) ;;
      wrong) failed=1; echo "$name: allocation $n refused: status $status, $(head -n 1 printed)" ;;
    esac
  done
  echo "$name: $((n - 1)) allocations refused in turn: $eights times status 8, $same times the usual outcome"
}

try_all plan "out.csv out.txt" plan one.csv none.csv out.csv out.txt --workers=1
try_all verify "" verify one.csv none.csv plan.csv cert.txt
try_all resume "out.csv out.txt" resume one.csv none.csv part.csv part.txt out.csv out.txt --workers=1
try_all freeze "out.csv out.txt" freeze 1 three.csv none.csv two.csv out.csv out.txt --workers=1 --budget=5
try_all effort "out.csv out.txt" gen 7 3 2 out.csv out.txt --workers=1 --budget=1 --effort=300
try_all sheet "out.sheet" sheet one.csv none.csv plan.csv out.sheet
exit $failed
