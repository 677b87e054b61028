#!/usr/bin/env bash
# Tries further wrong bodies of some crates, each of which the prover has to refuse: those of tests/edits/CRATE/, which the gate leaves
# out since each costs it a check. To be run once when a clause of such a crate changes. What the gate proved here of the same files is
# taken from there. It fails where an edit isn't refused, and where an edit can't be applied or compiled any more.
# Usage: tests/edits.sh CRATE..
set -euo pipefail
top=$(cd "$(dirname "$0")/.." && pwd)
[ $# -gt 0 ] || { echo "usage: tests/edits.sh CRATE..; the crates: $(cd "$top/tests/edits" && echo *)" >&2; exit 2; }
for crate; do
  [ -d "$top/tests/edits/$crate" ] || { echo "tests/edits.sh: no edits of $crate" >&2; exit 2; }
done
python3 "$top/tests/edits_apply.py" "$@"
work=$(mktemp -d)
log=$(mktemp)
trap 'rm -rf "$work" "$log"' EXIT
tar -C "$top" --exclude=out --exclude=must-fail -cf - crates crates.txt HANDLES | tar -C "$work" -xf -
for crate; do
  cp -r "$top/tests/edits/$crate" "$work/crates/$crate/must-fail"
done
git init -q "$work"
cd "$work"
status=0
rt ci "$@" | tee "$log" | sed -n '/must-fail\|NOT PROVED\|FAILED\|passed,/p' || status=$?
# `rt ci` doesn't fail where an edit can't be tried, since such an edit says nothing of the crate.
if grep -q 'BAD EDIT' "$log"; then
  echo "tests/edits.sh: an edit was not tried" >&2
  status=1
fi
exit "$status"
