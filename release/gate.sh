#!/usr/bin/env bash
# Prints the line by which a release knows what a gate was of: the commit that is checked out, whether what the program is made of has
# other changes, and the sum of the program. Usage: release/gate.sh [PROGRAM]
set -euo pipefail
top=$(cd "$(dirname "$0")/.." && pwd)
program=${1:-$top/crates/cyber/out/cyber}
commit=$(git -C "$top" rev-parse HEAD 2>/dev/null || echo unknown)
[ -z "$(git -C "$top" status --porcelain -- crates crates.txt HANDLES 2>/dev/null)" ] || commit="$commit with changes"
sum=$(sha256sum "$program")
echo "commit $commit, program ${sum%% *}"
