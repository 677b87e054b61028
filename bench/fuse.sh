#!/usr/bin/env bash
# Measures two million arrivals over two readers with a fetch after each, by a program that is made here, beside the same
# program without the visitor, in one run.
set -euo pipefail
top=$(cd "$(dirname "$0")/.." && pwd)
work=$(mktemp -d)
trap 'rm -rf "$work"' EXIT
. "$top/bench/measure.sh"

repository "$top" fuse_bench cy_msg cy_fuse
cat >crates/fuse_bench/src/main.rt <<'P'
//! Has two million messages arrive at a visitor of two readers, or only makes them where a word is given.
#![tactic(auto)]

use cy_fuse::{Cursor, Visitor};
use cy_msg::{Token, Tuple};
use std::alloc::Global;
use std::{env, io};

/// How many messages arrive.
const ARRIVALS: u32 = 2_000_000;

// Message k of the two channels.
fn message(k: u32) -> Token {
    Token {
        channel: k % 2,
        seq: k / 2,
        time: u64::from(k),
        whole: Some(i64::from(k)),
        origin: Some(k),
    }
}

// The sum of the positions that were fetched.
fn fused(alloc: Global) -> Option<u64> {
    let mut visitor = Visitor::prepare(alloc, 4, 2, ARRIVALS).ok()?;
    let mut cursor = Cursor::new();
    let mut sum = 0u64;
    for k in 0..ARRIVALS {
        if visitor.spare() > 0 {
            visitor.arrive((k % 2) as u8, message(k));
        }
        if let Some((Tuple::Two(first, _), position, _)) = visitor.try_fetch(&mut cursor) {
            sum = sum.wrapping_add(position ^ first.time);
        }
    }
    Some(sum)
}

// The sum of the messages' times.
fn made() -> u64 {
    let mut sum = 0u64;
    for k in 0..ARRIVALS {
        sum = sum.wrapping_add(message(k).time);
    }
    sum
}

fn main(rt: HostRuntime) -> io::Result<()> {
    let mut words = env::args(&rt)?.skip(1);
    let sum = match words.next() {
        Some(_) => made(),
        None => fused(rt.alloc()).unwrap_or(0),
    };
    println!(rt; "{sum}")
}
P
mkdir -p crates/fuse_bench/proofs/fused
cat >crates/fuse_bench/proofs/fused/Invariants.antt <<'P'
use Rattle.std.proofs.Common.{◌≡◌}
use Rattle.fuse_bench.proofs.fused.Given as goal

abbrev pub invariant-loop-k : goal.invariant-loop-k
invariant-loop-k l = l.visitor.roles ≡ 2
P
(cd crates/fuse_bench && rt run) >"$work/build.log" 2>&1 || true
program=$work/repository/crates/fuse_bench/out/fuse_bench
if [ ! -x "$program" ]; then
  tail -n 20 "$work/build.log" >&2
  exit 1
fi

# The kernel's part is the handing out of the 96 MB in which the arrivals are kept.
python3 - "$program" <<'P'
import resource, subprocess, sys, time
program, arrivals = sys.argv[1], 2_000_000
def run(*words):
    before, began = resource.getrusage(resource.RUSAGE_CHILDREN), time.perf_counter()
    subprocess.run([program, *words], check=True, stdout=subprocess.DEVNULL)
    elapsed, after = time.perf_counter() - began, resource.getrusage(resource.RUSAGE_CHILDREN)
    spent = elapsed, after.ru_utime - before.ru_utime, after.ru_stime - before.ru_stime
    return [seconds * 1e9 / arrivals for seconds in spent]
def tell(name, *words):
    elapsed, user, kernel = min(run(*words) for _ in range(9))
    print(f"{name}: {elapsed:.1f} ns each, {user:.1f} in the program and {kernel:.1f} in the kernel")
tell("an arrival with a fetch")
tell("a message that is only made", "none")
P
