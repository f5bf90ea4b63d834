#!/usr/bin/env bash
# Compares drafts on tiny plates with those found by trying every millimetre: on all plates of up to 12 by 12 mm with up to two tiny
# defects, or, where SEED COUNT are given, in that many random cases. Prints the cases that differ, and how many cases there were.
set -eu
top=$(cd "$(dirname "$(readlink -f "$0")")/.." && pwd)
book=$top/crates/trace_book/out/trace_book
[ -x "$book" ] || (cd "$top/crates/trace_book" && rt run) > /dev/null
work=$(mktemp -d)
trap 'rm -rf "$work"' EXIT
rustc --edition 2024 -O -o "$work/least_steps" "$top/bench/least_steps.rs"
"$work/least_steps" "$book" "$@"
