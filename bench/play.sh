#!/usr/bin/env bash
# Measures `cyber play --serial` of the files of `make 1000000` beside the same play by hand in Rust and over libprotobuf in C++
# (`bench/peers/`), in turns in one run: on all processors and on one, with large pages and without them. A peer must write the same record
# and trace, byte for byte; else it isn't measured. Beside them it measures `cyber make` and `cp` of what a play writes.
# Usage: bench/play.sh [RUNS [COUNT]], by default 15 turns of 1000000 messages. PROGRAM may name another program than the built one.
set -euo pipefail
top=$(cd "$(dirname "$0")/.." && pwd)
work=$(mktemp -d)
trap 'rm -rf "$work"' EXIT
. "$top/bench/measure.sh"

runs=${1:-15}
count=${2:-1000000}
[ -n "${PROGRAM:-}" ] || "$top/cyber" --build
# The program itself, since the launcher first looks whether it is up to date.
program=$(readlink -f "${PROGRAM:-$top/crates/cyber/out/cyber}")
"$program" make "$count" "$work/m" >"$work/m.line"
record=$work/m.record
commands=("cyber play --serial" "$program" play --serial --dag "$work/m.dag" --record "$record" --out "$work/out" --trace "$work/trace")
commands_on_one=("${commands[0]}" taskset -c 0 "${commands[@]:1}")

# Adds a peer to the commands, if it writes what the program writes.
add_peer() { # a name, and the peer
  "$2" "$record" "$work/peer.out" "$work/peer.trace" >"$work/peer.line"
  if cmp "$work/m.out" "$work/peer.out" && cmp "$work/m.trace" "$work/peer.trace" && cmp "$work/m.line" "$work/peer.line"; then
    commands+=(-- "$1" "$2" "$record" "$work/peer.out" "$work/peer.trace")
    commands_on_one+=(-- "$1" taskset -c 0 "$2" "$record" "$work/peer.out" "$work/peer.trace")
  else
    echo "$1: it isn't measured, since it writes something else"
  fi
}

name="by hand in Rust"
if command -v rustc >/dev/null; then
  rustc --edition 2021 -O -o "$work/in_rust" "$top/bench/peers/play.rs"
  add_peer "$name" "$work/in_rust"
else
  echo "$name: there is no rustc"
fi
name="libprotobuf in C++"
if command -v g++ >/dev/null && command -v protoc >/dev/null && [ -e /usr/include/google/protobuf/message.h ]; then
  protoc --proto_path="$top/bench/peers" --cpp_out="$work" record.proto
  g++ -std=c++17 -O2 -DNDEBUG -I"$work" -o "$work/in_cpp" "$top/bench/peers/play.cc" "$work/record.pb.cc" -lprotobuf
  add_peer "$name" "$work/in_cpp"
else
  echo "$name: it needs g++, protobuf-compiler and libprotobuf-dev"
fi

cat "$work/m.line"
echo "record $(stat -c %s "$record") bytes, written $(stat -c %s "$work/m.out") and a trace of $(stat -c %s "$work/m.trace")"

in_turns() { # the kind of pages, and what asks the C library for them
  echo "On all processors, with $1 pages, load $(cut -d ' ' -f 1 /proc/loadavg):"
  GLIBC_TUNABLES=$2 python3 "$top/bench/turns.py" "$runs" "${commands[@]}"
  echo "On one processor, with $1 pages, load $(cut -d ' ' -f 1 /proc/loadavg):"
  GLIBC_TUNABLES=$2 python3 "$top/bench/turns.py" "$runs" "${commands_on_one[@]}"
}
in_turns large "$GLIBC_TUNABLES"
in_turns plain glibc.malloc.hugetlb=0:glibc.malloc.mmap_max=0:glibc.malloc.top_pad=67108864

written=$(($(stat -c %s "$work/m.out") + $(stat -c %s "$work/m.trace")))
mkdir "$work/copy"
echo "Beside these:"
measure "cyber make $count" "$(($(stat -c %s "$record") + written))" "$program" make "$count" "$work/m"
measure "cp of what a play writes" "$((2 * written))" cp "$work/m.out" "$work/m.trace" "$work/copy"
