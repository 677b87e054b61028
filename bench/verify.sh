#!/usr/bin/env bash
# Measures `cyber verify` of what `cyber play --serial` writes for the files of `make`, beside that play, in turns in one run.
# Usage: bench/verify.sh [COUNT [RUNS]], by default 1000000 messages and three turns. PROGRAM may name another program than the built one.
set -euo pipefail
top=$(cd "$(dirname "$0")/.." && pwd)
work=$(mktemp -d)
trap 'rm -rf "$work"' EXIT
. "$top/bench/measure.sh"

count=${1:-1000000}
runs=${2:-3}
[ -n "${PROGRAM:-}" ] || "$top/cyber" --build
# The program itself, since the launcher first looks whether it is up to date.
program=$(readlink -f "${PROGRAM:-$top/crates/cyber/out/cyber}")
"$program" make "$count" "$work/m"
words=(--dag "$work/m.dag" --record "$work/m.record" --out "$work/m.out" --trace "$work/m.trace")
"$program" verify "${words[@]}"
python3 "$top/bench/turns.py" "$runs" \
  "cyber verify" "$program" verify "${words[@]}" -- \
  "cyber play --serial" "$program" play --serial "${words[@]}"
