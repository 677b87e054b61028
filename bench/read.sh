#!/usr/bin/env bash
# Measures `cyber info` on two records, beside `cat` of them, and the two ways to load them by a program that is made here: `load`, which
# decodes the bodies of chunks side by side, and `load_whole`, which reads the file in one piece and decodes it on one thread. The first
# record has a million small messages, the second 1 GiB in messages of 64 KiB. All in one run.
# Usage: bench/read.sh [CHUNKS]: so many chunks of 16 MiB in the second record (64).
set -euo pipefail
top=$(cd "$(dirname "$0")/.." && pwd)
work=$(mktemp -d)
trap 'rm -rf "$work"' EXIT
. "$top/bench/measure.sh"

# The names are short, since `info` prints the one that it is given.
cd "$work"
"$top/cyber" --build
"$top/cyber" make 1000000 m
"$top/cyber" info m.record
python3 "$top/bench/large_record.py" large.record "${1:-64}"
"$top/cyber" info large.record

repository "$top" read_bench cy_store cy_reader
cp "$top/HANDLES" .
cat >crates/read_bench/src/main.rt <<'P'
//! Loads the record of a name, side by side or, where the first word is `whole`, on one thread, and
//! prints how many messages it has.
#![tactic(auto)]

use cy_reader::{LoadError, Record, load, load_whole};
use cy_store::{RealStore, Store};
use std::alloc::Global;
use std::thread::Threads;
use std::{env, io};

// How many messages a record has, 0 where it is none.
fn messages_of(loaded: Result<Record, LoadError>) -> u32 {
    match loaded {
        Ok(record) => record.messages(),
        Err(_) => 0,
    }
}

// Loads in one of the two ways.
fn loaded<S: Store, R: Threads + Sync>(
    rt: &R,
    alloc: Global,
    store: &mut S,
    way: &str,
    name: &str,
) -> Result<Record, LoadError> {
    match way {
        "whole" => load_whole(alloc, store, name),
        _ => load(rt, alloc, store, name),
    }
}

fn main(rt: HostRuntime) -> io::Result<()> {
    let mut words = env::args(&rt)?.skip(1);
    let (Some(way), Some(name)) = (words.next(), words.next()) else {
        return Ok(());
    };
    let mut store = RealStore::new(&rt);
    let count = messages_of(loaded(&rt, rt.alloc(), &mut store, way.as_str(), name.as_str()));
    println!(rt; "{count} messages")
}
P
(cd crates/read_bench && rt run) >"$work/build.log" 2>&1 || true
program=$work/repository/crates/read_bench/out/read_bench
if [ ! -x "$program" ]; then
  tail -n 20 "$work/build.log" >&2
  exit 1
fi

cd "$work"
for record in m.record large.record; do
  bytes=$(stat -c %s "$record")
  # The program itself, since the launcher first looks whether it is up to date.
  measure "cyber info $record" "$bytes" "$top/crates/cyber/out/cyber" info "$record"
  measure "load $record" "$bytes" "$program" parts "$record"
  measure "load_whole $record" "$bytes" "$program" whole "$record"
  measure "cat $record" "$bytes" cat "$record"
done
