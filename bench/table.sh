#!/usr/bin/env bash
# Measures the way of half a million messages through one component on one thread, by a program that is made and proved here, in
# one run: at the flag table, by proved calls (`table/`), and beside that in a world, by the serial run. Each message is played and
# arrives, and the component is taken three times: it is called on the message and sends its output, finds nothing more and parks,
# and is left as it waits.
set -euo pipefail
top=$(cd "$(dirname "$0")/.." && pwd)
work=$(mktemp -d)
trap 'rm -rf "$work"' EXIT
. "$top/bench/measure.sh"

repository "$top" table_bench cy_msg cy_fuse cy_comp wake_core cy_table
cp "$top/HANDLES" .
cd crates/table_bench
# Its files here end in .in, since the gate takes every file that ends in .rt or .antt for part of a crate.
(cd "$top/bench/table" && find . -name '*.in') | while read -r file; do
  mkdir -p "$(dirname "$file")"
  cp "$top/bench/table/$file" "${file%.in}"
done
rt run >"$work/build.log" 2>&1 || true
program=$work/repository/crates/table_bench/out/table_bench
if [ ! -x "$program" ]; then
  tail -n 20 "$work/build.log" >&2
  exit 1
fi

python3 - "$program" <<'P'
import resource, subprocess, sys, time
program, messages = sys.argv[1], 500_000
def run(*words):
    before, began = resource.getrusage(resource.RUSAGE_CHILDREN), time.perf_counter()
    made = subprocess.run([program, *words], check=True, capture_output=True, text=True).stdout
    elapsed, after = time.perf_counter() - began, resource.getrusage(resource.RUSAGE_CHILDREN)
    assert int(made) == messages, made
    return elapsed * 1e9 / messages, (after.ru_utime - before.ru_utime) * 1e9 / messages
def tell(name, *words):
    elapsed, user = min(run(*words) for _ in range(9))
    print(f"{name}: {elapsed:.1f} ns each, {user:.1f} in the program")
tell("a message at the table")
tell("a message in a world", "world")
tell("a message that is only made", "none")
P
