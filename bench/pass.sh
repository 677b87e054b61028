#!/usr/bin/env bash
# Measures `cyber pass` on a record of 1 MiB, beside a program in C that does the same by hand, and `cp` of the same files, in one run.
set -euo pipefail
top=$(cd "$(dirname "$0")/.." && pwd)
work=$(mktemp -d)
trap 'rm -rf "$work"' EXIT
. "$top/bench/measure.sh"

python3 "$top/bench/largest.py" "$work/in.rec"
"$top/cyber" --build
"$top/cyber" pass "$work/in.rec" "$work/out.rec" "$work/out.trace" a b

bytes=$(($(stat -c %s "$work/in.rec") + $(stat -c %s "$work/out.rec") + $(stat -c %s "$work/out.trace")))
mkdir "$work/copy"
# The program itself, since the launcher first looks whether it is up to date.
measure "cyber pass" "$bytes" "$top/crates/cyber/out/cyber" pass "$work/in.rec" "$work/out.rec" "$work/out.trace" a b
if command -v cc >/dev/null; then
  cc -O2 -o "$work/by_hand" "$top/bench/pass.c"
  "$work/by_hand" "$work/in.rec" "$work/hand.rec" "$work/hand.trace" a b
  cmp "$work/hand.rec" "$work/out.rec"
  cmp "$work/hand.trace" "$work/out.trace"
  measure "the same by hand in C" "$bytes" "$work/by_hand" "$work/in.rec" "$work/hand.rec" "$work/hand.trace" a b
else
  echo "the same by hand in C: there is no cc"
fi
measure "cp of the same files" "$((2 * bytes))" cp "$work/in.rec" "$work/out.rec" "$work/out.trace" "$work/copy"
