#!/usr/bin/env bash
# Measures plays on threads by a program that is made and proved here: `cyber` with a gate that counts the calls which processors
# make, so that the share of these is seen, and not only how many calls the line tells of; what is left is made when the threads have
# ended. First the files of `make`, with --serial and on one, two and four processors of one context and on four pinned ones: a call
# costs next to nothing there, so this is the price of the threads. Then four components side by side, whose gate works for ten
# microseconds at each call: this is what threads are for.
# Usage: bench/threads.sh [COUNT [RUNS]]: so many messages (1000000), the best of so many runs (9).
set -euo pipefail
top=$(cd "$(dirname "$0")/.." && pwd)
work=$(mktemp -d)
trap 'rm -rf "$work"' EXIT
. "$top/bench/measure.sh"

count=${1:-1000000}
runs=${2:-9}

below() { # the crates that the bench stands on, lowest first
  awk -F '[: ]+' -v last=cyber_cli '
    { line[NR] = $0; name[NR] = $1 }
    END {
      used[last] = 1
      for (i = NR; i > 0; i--) if (name[i] in used) { n = split(line[i], part, /[: ]+/); for (k = 2; k <= n; k++) used[part[k]] = 1 }
      for (i = 1; i <= NR; i++) if (name[i] in used) print name[i]
    }' "$top/crates.txt"
}
mapfile -t crates < <(below)
repository "$top" threads_bench "${crates[@]}"
cp "$top/HANDLES" .
cat >crates/threads_bench/src/main.rt <<'P'
//! The program `cyber` with a gate that counts the calls which processors make, and works for so
//! many microseconds at each. The words are these microseconds and those of `cyber`.
#![tactic(auto)]

use cy_msg::Text;
use cy_run::Gate;
use cy_store::{RealSink, RealStore};
use cy_table::Hold;
use cyber_cli::{Status, cyber};
use std::alloc::Global;
use std::process::ExitCode;
use std::sync::Wait;
use std::sync::atomic::{AtomicU64, Ordering};
use std::time::Instant;
use std::{env, io};

/// How many rounds of work are timed.
const TIMED: u64 = 100_000_000;

// A gate that works for so many rounds, each of which goes on from what the ones before it came to,
// and counts the calls that pass it.
#[derive(Drop)]
struct WorkGate {
    rounds: u64,
    passed: AtomicU64,
    worked: AtomicU64,
}

impl WorkGate {
    fn new(rounds: u64, worked: u64) -> Self {
        WorkGate {
            rounds,
            passed: AtomicU64::new(0),
            worked: AtomicU64::new(worked),
        }
    }
}

impl Gate for WorkGate {
    fn before_call<R: Wait>(&self, _rt: &R, _component: u32, _call: u32, _hold: &Hold) {
        self.passed.fetch_add(1, Ordering::SeqCst);
        if self.rounds > 0 {
            let worked = work(self.rounds, self.worked.load(Ordering::SeqCst));
            self.worked.store(worked, Ordering::SeqCst);
        }
    }
}

// So many rounds of work, each of which needs what the one before it gave.
fn work(rounds: u64, start: u64) -> u64 {
    let mut value = start | 1;
    for _ in 0..rounds {
        value ^= value << 13;
        value ^= value >> 7;
        value ^= value << 17;
    }
    value
}

// How many rounds take so many microseconds, and what those came to that were timed for that.
fn rounds_in(rt: &HostRuntime, micros: u64) -> io::Result<(u64, u64)> {
    if micros == 0 {
        return Ok((0, 0));
    }
    let start = Instant::now(rt)?;
    let value = work(TIMED, 1);
    let taken = start.elapsed(rt)?.as_micros().max(1);
    let rounds = u128::from(micros) * u128::from(TIMED) / taken;
    Ok((u64::try_from(rounds).unwrap_or(0), value))
}

// The words, as the program takes them.
fn texts(rt: &HostRuntime) -> io::Result<Vec<Text>> {
    let mut words = Vec::new(rt.alloc());
    for word in env::args(rt)?.skip(1) {
        words.push(Text::from_string(word))?;
    }
    Ok(words)
}

fn main(rt: HostRuntime) -> io::Result<ExitCode> {
    let words = texts(&rt)?;
    let Some((micros, words)) = words.split_first() else {
        return Ok(ExitCode::FAILURE);
    };
    let micros = micros.as_str().parse::<u64>().unwrap_or(0);
    let (rounds, worked) = rounds_in(&rt, micros)?;
    let gate = WorkGate::new(rounds, worked);
    let mut store = RealStore::new(&rt);
    let mut out = RealSink::new(rt.stdout());
    let mut err = RealSink::new(rt.stderr());
    let start = Instant::now(&rt)?;
    let status = cyber(&rt, rt.alloc(), words, &mut store, &mut out, &mut err, &gate);
    let micros = start.elapsed(&rt)?.as_micros();
    let passed = gate.passed.load(Ordering::SeqCst);
    println!(rt; "processors made {passed} calls in a play of {micros} microseconds")?;
    Ok(ExitCode::from(status.code()))
}
P
(cd crates/threads_bench && rt run) >"$work/build.log" 2>&1 || true
program=$work/repository/crates/threads_bench/out/threads_bench
if [ ! -x "$program" ]; then
  tail -n 20 "$work/build.log" >&2
  exit 1
fi

# The best time of the runs, and how many of the calls of that run processors made.
plays() { # a name, the microseconds of the gate, and the words of `play`
  python3 - "$runs" "$program" "$@" <<'P'
import re, subprocess, sys
runs, program, name, micros, words = int(sys.argv[1]), sys.argv[2], sys.argv[3], sys.argv[4], sys.argv[5:]
best = None
for _ in range(runs):
    told = subprocess.run([program, micros, "play", *words], check=True, capture_output=True, text=True).stdout
    calls = int(re.search(r"calls (\d+)", told).group(1))
    made, time = map(int, re.search(r"processors made (\d+) calls in a play of (\d+) microseconds", told).groups())
    if best is None or time < best[0]:
        best = (time, calls, made)
time, calls, made = best
print(f"{name}: {time / 1000:.1f} ms, {calls} calls, {100 * made / calls:.1f} % of them by processors")
P
}

for processors in 1 2 4; do
  echo "scheduler_conf { classic_conf { groups { name: \"g\" processor_num: $processors } } }" >"$work/classic$processors"
done
pinned() { # the components, one on each of four processors
  local processor=0 name
  echo 'scheduler_conf { policy: "choreography" choreography_conf { choreography_processor_num: 4'
  for name in "$@"; do
    echo "tasks { name: \"$name\" processor: $processor }"
    processor=$((processor + 1))
  done
  echo '} }'
}

"$program" 0 make "$count" "$work/m" >/dev/null
pinned adder band last8 late >"$work/pinned4"
words=(--dag "$work/m.dag" --record "$work/m.record" --out "$work/out.record" --trace "$work/out.trace")
plays "$count messages, --serial" 0 --serial "${words[@]}"
for sched in classic1 classic2 classic4 pinned4; do
  plays "$count messages, $sched" 0 --sched "$work/$sched" "${words[@]}"
done

beside=$((count / 50))
"$program" 0 make "$beside" "$work/b" >/dev/null
for name in p q r s; do
  echo "out: \"/$name\"" >"$work/$name.conf"
  echo "components { class_name: \"PassComponent\" config { name: \"$name\" config_file_path: \"$work/$name.conf\"
    readers { channel: \"/a\" } } }"
done >"$work/components"
echo "module_config { $(cat "$work/components") }" >"$work/b.dag"
pinned p q r s >"$work/pinned4"
words=(--dag "$work/b.dag" --record "$work/b.record" --out "$work/out.record" --trace "$work/out.trace")
for sched in classic1 classic2 classic4 pinned4; do
  plays "$beside messages, four components of 10 us a call, $sched" 10 --sched "$work/$sched" "${words[@]}"
done
