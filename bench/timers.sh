#!/usr/bin/env bash
# Measures `cyber play --serial` of a record of ten minutes, one message each 100 milliseconds, with a timer of 1 millisecond (600,000
# ticks, each a call), and beside it the same without the timer, in one run.
set -euo pipefail
top=$(cd "$(dirname "$0")/.." && pwd)
work=$(mktemp -d)
trap 'rm -rf "$work"' EXIT
. "$top/bench/measure.sh"

cd "$work"
PYTHONPATH=$top/tools python3 - <<'P'
from record import content_of, record
open("minutes.record", "wb").write(record([(b"/a", 100_000_000 * k, content_of(k)) for k in range(6001)]))
P
component='components { class_name: "PassComponent" config { name: "pass" config_file_path: "pass.conf" readers { channel: "/a" } } }'
timer='timer_components { class_name: "CountComponent" config { name: "beat" config_file_path: "beat.conf" interval: 1 } }'
echo 'out: "/passed"' >pass.conf
echo 'out: "/beats"' >beat.conf
echo "module_config { $component }" >without.dag
echo "module_config { $component $timer }" >with.dag

"$top/cyber" --build
for kind in without with; do
  words=(play --serial --dag "$kind.dag" --record minutes.record --out "$kind.out" --trace "$kind.trace")
  "$top/cyber" "${words[@]}"
  bytes=$(($(stat -c %s minutes.record) + $(stat -c %s "$kind.out") + $(stat -c %s "$kind.trace")))
  # The program itself, since the launcher first looks whether it is up to date.
  measure "cyber play --serial, $kind the timer" "$bytes" "$top/crates/cyber/out/cyber" "${words[@]}"
done
