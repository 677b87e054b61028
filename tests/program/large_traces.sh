# A part of tests/program.sh, which reads it: `verify` of traces and records that are large in one thing. Each ends with what its files bring about, and
# not with want of memory. What a trace says beyond the first lines here is never written by a play.

# Writes a trace of the first play of `pass` with further lines: so many calls behind its one, and then lines of the tape.
longer_trace() { # how many calls, and the lines of the tape, in Python
  python3 - "$1" "$2" <<'P'
import sys
calls, tape = int(sys.argv[1]), eval(sys.argv[2])
with open("files/trace", "rb") as file:
    lines = file.readlines()
with open("files/trace", "wb") as file:
    file.write(b"".join(lines[:5]) + b"call 1/1 1 -\n" * calls + lines[5] + tape)
P
}

# There are 524,289 calls, with two numbers each.
verifies_many_calls() {
  begin 'verifies 524289 calls of a component'
  one_component PassComponent "$READS_A" 'out: "/o"'
  python3 "$top/tests/large.py" files/in.rec messages /a 524289 1
  run play --serial "${PASS_FILES[@]}"
  ends 0 'done: played 524289, shadowed 0, calls 524289, written 1048578' ''
  verifies 0 'lawful: played 524289, shadowed 0, calls 524289, written 1048578' '' "${PASS_FILES[@]}"
  rm -r files
}

verifies_many_shadowed() {
  begin 'verifies a play with 1000001 shadowed messages'
  one_component PassComponent "$READS_A" 'out: "/o"'
  python3 "$top/tests/large.py" files/in.rec messages /o 1000001 1 /a 1 2
  run play --serial "${PASS_FILES[@]}"
  ends 0 'done: played 1, shadowed 1000001, calls 1, written 2' ''
  verifies 0 'lawful: played 1, shadowed 1000001, calls 1, written 2' '' "${PASS_FILES[@]}"
  rm -r files
}

# The one message has 128 MiB, and each of 17 components passes it on, so the record that is compared has 2.25 GiB. That takes ten seconds.
verifies_a_record_above_2_gib() {
  begin 'verifies a record that has more than 2 GiB'
  mkdir files
  side_by_side PassComponent 17 /a
  python3 "$top/tests/large.py" files/in.rec content 134217728
  run play --serial --dag d.dag --record in.rec --out out.rec --trace trace
  ends 0 'done: played 1, shadowed 0, calls 17, written 18' ''
  [ "$(stat -c %s files/out.rec)" -gt 2147483648 ]
  count $? "$name: the record has $(stat -c %s files/out.rec) bytes"
  run verify --dag d.dag --record in.rec --out out.rec --trace trace
  ends 0 'lawful: played 1, shadowed 0, calls 17, written 18' ''
  rm -r files
}

# The messages of 1,000 channels come at random. The tape has the names in the order in which they first come.
verifies_many_channels() {
  begin 'verifies 70000 messages on 1000 channels'
  local calls
  mkdir files
  python3 "$top/bench/channels.py" 70000 1000 files/m
  calls=$(PYTHONPATH="$top/tools" python3 -c 'from record import *
with opened("files/m.record") as data:
    print(sum(channel == b"/channel/0" for channel, _, _ in each_message(data)))')
  run play --serial --dag m.dag --record m.record --out out.rec --trace trace
  ends 0 "done: played 70000, shadowed 0, calls $calls, written $((70000 + calls))" ''
  is_lawful files out.rec trace --dag m.dag --record m.record
  [ "$(sed -n 's/^tape \("[^"]*"\) .*/\1/p' files/trace | sort -u | wc -l)" = 1001 ]
  count $? "$name: the tape does not have 1001 names"
  rm -r files
}

# No lawful run has more than 1,024 names.
reads_many_names() {
  begin 'reads a tape of 66000 names'
  of_a_pass
  longer_trace 0 '"".join(f"tape \"{k}\" {n}\n" for n in (1, 2) for k in range(66000)).encode()'
  verifies 1 '' 'cyber: trace: not a lawful run' "${PASS_FILES[@]}"
  echo 'tape "1" x' >>files/trace
  verifies 1 '' 'cyber: trace: line 132007: Bad' "${PASS_FILES[@]}"
}

# The component has 1,200,002 numbers. Behind 4,800,000 lines comes one that is bad.
finds_a_bad_line_behind_many() {
  begin 'finds a bad line behind 4800006 others'
  of_a_pass
  longer_trace 600000 'b"tape \"/in\" 1\n" * 4200000 + b"tape \"/in\" 01\n"'
  verifies 1 '' 'cyber: trace: line 4800007: Bad' "${PASS_FILES[@]}"
  rm -r files
}

verifies_many_calls
verifies_many_shadowed
verifies_a_record_above_2_gib
verifies_many_channels
reads_many_names
finds_a_bad_line_behind_many
