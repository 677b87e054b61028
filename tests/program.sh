#!/usr/bin/env bash
# Runs the built program on real files and streams, and compares each status, each line and each file with what is expected.
# Usage: tests/program.sh [PROGRAM] [PART..]; a word with a `/` is the program, by default the one that `rt ci` left in this repository.
# Without a PART it runs all of tests/program/.
set -uo pipefail
top=$(cd "$(dirname "$0")/.." && pwd)
parts=(pass words make play stop threads few_threads check info timers answers values refused verify large_traces recover merge many odd)
program=${PROGRAM:-$top/crates/cyber/out/cyber}
if [[ ${1:-} == */* ]]; then
  program=$1
  shift
fi
for part; do
  [[ " ${parts[*]} " == *" $part "* ]] || { echo "tests/program.sh: no part '$part': ${parts[*]}" >&2; exit 2; }
done
[ $# -gt 0 ] || set -- "${parts[@]}"
[ -x "$program" ] || { echo "tests/program.sh: no program at $program" >&2; exit 1; }
program=$(readlink -f "$program")
work=$(mktemp -d)
trap 'rm -rf "$work"' EXIT
. "$top/tests/program/counting.sh"
. "$top/tests/program/common.sh"
for part; do
  # shellcheck disable=SC1090
  . "$top/tests/program/$part.sh"
done
sum_up
