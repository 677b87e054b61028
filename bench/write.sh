#!/usr/bin/env bash
# Measures the writing of a record of a million messages of 3 bytes on two channels, in three chunks, by a program that is made
# here, beside `cp` of the same file, in one run.
set -euo pipefail
top=$(cd "$(dirname "$0")/.." && pwd)
work=$(mktemp -d)
trap 'rm -rf "$work"' EXIT
. "$top/bench/measure.sh"

repository "$top" write_bench cy_store cy_writer
cat >crates/write_bench/src/main.rt <<'P'
//! Writes a million messages to the record of the given name.
#![tactic(auto)]

use cy_store::{RealStore, Store};
use cy_writer::{RecordWriter, WriteError};
use std::alloc::Global;
use std::env;
use std::process::ExitCode;

/// Nanoseconds from one message to the next: a million of them take 50 seconds, and so three chunks.
const STEP: u64 = 50_000;

// Puts this many messages, each on the other channel than the one before.
fn write<S: Store>(alloc: Global, store: &mut S, name: &str) -> Result<(), WriteError> {
    let mut writer = RecordWriter::start(alloc, store, name)?;
    writer.channel(alloc, store, "/in", "", b"")?;
    writer.channel(alloc, store, "/out", "", b"")?;
    for number in 0..500_000u64 {
        writer.message(alloc, store, 0, number * (2 * STEP), b"\x08\xa7\x0f")?;
        writer.message(alloc, store, 1, number * (2 * STEP) + STEP, b"\x08\xa7\x0f")?;
    }
    writer.close(alloc, store)
}

fn main(rt: HostRuntime) -> ExitCode {
    let Ok(args) = env::args(&rt) else {
        return ExitCode::FAILURE;
    };
    let Some(name) = args.skip(1).next() else {
        return ExitCode::FAILURE;
    };
    let mut store = RealStore::new(&rt);
    match write(rt.alloc(), &mut store, name.as_str()) {
        Ok(()) => ExitCode::SUCCESS,
        Err(_) => ExitCode::FAILURE,
    }
}
P
mkdir -p crates/write_bench/proofs/write
touch crates/write_bench/proofs/Lib.antt
cat >crates/write_bench/proofs/write/Invariants.antt <<'P'
use Rattle.cy_writer.specs.Stands.{HasChannel, IsThere}
use Rattle.write_bench.proofs.write.Given as goal

abbrev pub invariant-loop-number : goal.invariant-loop-number
invariant-loop-number g l = record {
  first : HasChannel l.writer 0;
  second : HasChannel l.writer 1;
  there : IsThere l.writer (g.S.Store.shows l.store).files;
}
P
(cd crates/write_bench && rt run) >"$work/build.log" 2>&1 || true
program=$work/repository/crates/write_bench/out/write_bench
if [ ! -x "$program" ]; then
  tail -n 60 "$work/build.log" >&2
  exit 1
fi

"$program" "$work/out.rec"
bytes=$(stat -c %s "$work/out.rec")
measure "a million messages" "$bytes" "$program" "$work/out.rec"
measure "cp of the file" "$((2 * bytes))" cp "$work/out.rec" "$work/copy.rec"
