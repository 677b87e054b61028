#!/usr/bin/env bash
# Begins a batch, and stops it by force, with all that it started here, when COUNT drives are done. Usage: interrupt.sh COUNT COMMAND...
# What it started on a cluster goes on; where there is a Slurm that is cancelled too, and waited for. What the batch printed is in `log`.
set -uo pipefail

rows() {
  find batch.out -name row.json 2>/dev/null | wc -l
}

setsid "${@:2}" >log 2>&1 &
process=$!
until [ "$(rows)" -ge "$1" ] || ! kill -0 "$process" 2>/dev/null; do
  sleep 0.1
done
kill -KILL -- "-$process" 2>/dev/null
wait "$process" 2>/dev/null
if [ -n "${SLURM_CONF:-}" ]; then
  scancel --name=zektrob
  while squeue --noheader --name=zektrob | grep -q .; do
    sleep 0.5
  done
fi
exit 0
