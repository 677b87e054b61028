#!/usr/bin/env bash
# Measures `cyber play --serial` and `cyber verify` of records with 1, 64 and 1,000 channels, whose messages come at random, and `verify` of a
# trace with 4,000 names. No record has so many channels, so that trace is not lawful; its time is compared with the play of 1,000 channels.
# All are run in five turns. Usage: bench/channels.sh [COUNT [PROGRAM]], by default 2000000 messages.
set -euo pipefail
top=$(cd "$(dirname "$0")/.." && pwd)
work=$(mktemp -d)
trap 'rm -rf "$work"' EXIT
. "$top/bench/measure.sh"

count=${1:-2000000}
program=$(readlink -f "${2:-${PROGRAM:-$top/crates/cyber/out/cyber}}")
cd "$work"
for channels in 1 64 1000; do
  python3 "$top/bench/channels.py" "$count" "$channels" "m$channels"
  "$program" play --serial --dag "m$channels.dag" --record "m$channels.record" --out "m$channels.out" --trace "m$channels.trace"
done
python3 "$top/bench/channels.py" --rename 4000 m1000.trace m4000.trace
PYTHONPATH=$top/bench python3 - "$program" <<'P'
import sys
from turns import ratios, run_in_turns

program = sys.argv[1]


def words(channels, trace):
    return ["--dag", f"m{channels}.dag", "--record", f"m{channels}.record", "--out", f"m{channels}.out", "--trace", trace]


runs, pairs = {}, []
for channels, names, status in ((1, 1, 0), (64, 64, 0), (1000, 1000, 0), (1000, 4000, 1)):
    play, verify = f"play --serial of {channels} channels", f"verify of {names} names"
    runs.setdefault(play, ([program, "play", "--serial", *words(channels, f"m{channels}.trace")], 0))
    runs[verify] = [program, "verify", *words(channels, f"m{names}.trace")], status
    pairs.append((verify, play))
taken = run_in_turns(5, runs)
for name, it in taken.items():
    print(f"{name}: {it}")
for verify, play in pairs:
    print(ratios(taken, verify, play))
P
