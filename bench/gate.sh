#!/usr/bin/env bash
# What the gate costs, crate by crate: runs `rt ci` from nothing over a copy of what is committed here, and prints a table in Markdown of the
# lines of each crate and the processor minutes of its parts, and the lines of front/weights.txt.
# Usage: bench/gate.sh [FOLDER]; the copy is made in FOLDER, or else in a temporary one that is removed. Beside it nothing should run.
set -euo pipefail
top=$(cd "$(dirname "$0")/.." && pwd)
if [ $# -gt 0 ]; then
  work=$(readlink -m "$1")
  mkdir -p "$work"
else
  work=$(mktemp -d)
  trap 'rm -rf "$work"' EXIT
fi
git clone -q "$top" "$work/gate"
python3 "$top/bench/gate.py" "$work/gate"
