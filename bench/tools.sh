#!/usr/bin/env bash
# Measures `cyber recover` and `cyber split` of the record that the play of `make 1000000` writes, and beside them `cyber info` and `cp` of
# it, in one run. Of `split` all messages are kept, and then those of one channel.
# Usage: bench/tools.sh [COUNT], by default 1000000 messages.
set -euo pipefail
top=$(cd "$(dirname "$0")/.." && pwd)
work=$(mktemp -d)
trap 'rm -rf "$work"' EXIT
. "$top/bench/measure.sh"

cd "$work"
"$top/cyber" --build
"$top/cyber" make "${1:-1000000}" m
rm m.record m.trace
# The program itself, since the launcher first looks whether it is up to date.
program=$top/crates/cyber/out/cyber

# Makes a run whose line is printed, and measures it with the bytes that it reads and writes.
measure_tool() { # a name, and the words
  "$program" "${@:2}"
  measure "$1" $(($(stat -c %s m.out) + $(stat -c %s out.rec))) "$program" "${@:2}"
}

measure_tool 'cyber recover' recover m.out out.rec
measure_tool 'cyber split, all messages' split m.out out.rec
measure_tool 'cyber split, one channel' split m.out out.rec --channels /win
measure 'cyber info' "$(stat -c %s m.out)" "$program" info m.out
measure 'cp of the record' $((2 * $(stat -c %s m.out))) cp m.out copy
