#!/usr/bin/env bash
# Lists what takes longest in a check of a crate, on one processor and from nothing: lemma files, definitions and the parts of each
# function's proof. What a check keeps it writes module by module, so the time of a module is that between its file and the one before.
# Usage: bench/slowest.sh CRATE [HOW_MANY]
set -euo pipefail
top=$(cd "$(dirname "$0")/.." && pwd)
name=$1
many=${2:-20}
work=$(mktemp -d)
trap 'rm -rf "$work"' EXIT

tar -C "$top" --exclude=out -cf - crates crates.txt HANDLES | tar -C "$work" -xf -
cd "$work/crates/$name"
# `rt` begins with what a check of the same text kept anywhere on this machine, so the text is another one here.
mkdir -p out/incremental
for root in src/lib.rt src/main.rt; do
  if [ -f "$root" ]; then
    echo '// Measured.' >>"$root"
  fi
done

rt check --jobs 1 >check.log 2>&1 || { tail -n 5 check.log; exit 1; }
grep -o '^logic=[a-z]*' check.log | tail -n 1

python3 - "$name" "$many" <<'END'
import collections, pathlib, sys

name, many = sys.argv[1], int(sys.argv[2])
files = sorted((it.stat().st_mtime, it.name) for it in pathlib.Path("out/incremental").rglob("*.oantt"))
took = collections.Counter()
for (before, _), (after, file) in zip(files, files[1:]):
    took[file.removesuffix(".oantt").removesuffix(".decls").replace(f"Rattle-{name}-", "")] += after - before
print(f"{len(took)} modules, {sum(took.values()):.0f} seconds")
for module, seconds in took.most_common(many):
    print(f"{seconds:8.1f}  {module}")
END
