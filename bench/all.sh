#!/usr/bin/env bash
# Runs all measurements here, one after another, and writes what they print to bench/RESULTS.md, with the machine and the date.
set -euo pipefail
top=$(cd "$(dirname "$0")/.." && pwd)
results=$top/bench/RESULTS.md
new=$(mktemp)
trap 'rm -f "$new"' EXIT

machine() {
  local model cores memory
  model=$(sed -n 's/^model name[^:]*: //p' /proc/cpuinfo | head -n 1)
  cores=$(nproc)
  memory=$(awk '/^MemTotal/ { printf "%.0f", $2 / 1048576 }' /proc/meminfo)
  echo "$cores processors ${model:+($model) }and $memory GB of memory, Linux $(uname -r), load $(cut -d ' ' -f 1 /proc/loadavg) at the start"
}

{
  echo "# Results"
  echo
  echo "Written by \`bench/all.sh\` on $(date -u '+%-d %B %Y at %H:%M UTC'), on a machine with $(machine)."
  echo "The commit was $(git -C "$top" rev-parse --short HEAD). Each figure stands beside its baseline in the same run."
} >"$new"

for name in play verify threads timers pass tools read write text fuse table; do
  echo "bench: $name.sh" >&2
  printf '\n## %s.sh\n\n' "$name" >>"$new"
  "$top/bench/$name.sh" | sed 's/^/    /' >>"$new"
done
mv "$new" "$results"
chmod 644 "$results"
