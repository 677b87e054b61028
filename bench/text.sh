#!/usr/bin/env bash
# Measures `parse` of a text of 16 MiB, by a program that is made here, beside `cat` of the same file, in one run.
set -euo pipefail
top=$(cd "$(dirname "$0")/.." && pwd)
work=$(mktemp -d)
trap 'rm -rf "$work"' EXIT
. "$top/bench/measure.sh"

repository "$top" text_bench cy_msg cy_text
cat >crates/text_bench/src/main.rt <<'P'
//! Reads the text of a file, or the file alone where a second word is given, and says how many fields it has.
#![tactic(auto)]

use cy_text::parse;
use std::process::ExitCode;
use std::{env, fs, io};

// How many fields a file's text has.
fn count(rt: &HostRuntime, name: &str, read_only: bool) -> io::Result<usize> {
    let text = fs::read(rt, name)?;
    if read_only || text.len() > 4_294_967_294 {
        return Ok(0);
    }
    match parse(rt.alloc(), text.as_slice()) {
        Ok(tree) => Ok(tree.entries().len()),
        Err(_) => Ok(0),
    }
}

fn main(rt: HostRuntime) -> io::Result<ExitCode> {
    let mut words = env::args(&rt)?.skip(1);
    let Some(name) = words.next() else {
        return Ok(ExitCode::SUCCESS);
    };
    let fields = count(&rt, name.as_str(), words.next().is_some())?;
    println!(rt; "{fields}")?;
    Ok(ExitCode::SUCCESS)
}
P
(cd crates/text_bench && rt run) >"$work/build.log" 2>&1 || true
program=$work/repository/crates/text_bench/out/text_bench
if [ ! -x "$program" ]; then
  tail -n 20 "$work/build.log" >&2
  exit 1
fi

python3 "$top/bench/scheduler.py" "$work/text" 16777216
bytes=$(stat -c %s "$work/text")
measure "parse" "$bytes" "$program" "$work/text"
measure "the same program without parse" "$bytes" "$program" "$work/text" read
measure "cat" "$bytes" cat "$work/text"
