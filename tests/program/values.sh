# shellcheck shell=bash disable=SC2154
# A part of tests/program.sh, which reads it: component files that say where the values of messages are. What a play must write is made by
# a Python script, whose values tests/tools/check_values.py compares with those of the Protocol Buffers package.

A_VALUE='value { channel: "/a" path: 1 kind: SINT64 }'

# Plays the files that are there, and compares record, trace and line with what a Python script makes of them; then plays them on threads.
plays_the_files() {
  mkdir -p want
  (cd files && python3 "$top/tests/replay.py" ../want/rec ../want/trace ../want/line --dag d.dag --record in.rec)
  run play --serial --dag d.dag --record in.rec --out out.rec --trace trace
  ends 0 "$(cat want/line)" ''
  both_whole
  is_lawful files out.rec trace --dag d.dag --record in.rec
  run play --dag d.dag --record in.rec --out threads.rec --trace threads
  [ "$status" -eq 0 ]
  count $? "$name: on threads the status is $status: $(head -c 200 err)"
  is_lawful files threads.rec threads --dag d.dag --record in.rec
}

# Writes a component for each class that is named: it reads /a, and writes a channel of its own. All values are given by the first file.
components_on_a() { # the values, and for each component its class and its parameters in one word
  local k=0 given=$1 it
  shift
  mkdir -p files
  for it; do
    echo "out: \"/o$k\" ${it#* } $given" >"files/p$k.conf"
    echo "components { class_name: \"${it%% *}\" config { name: \"p$k\" config_file_path: \"p$k.conf\" readers { channel: \"/a\"" \
      'pending_queue_size: 4 } } }'
    given=''
    k=$((k + 1))
  done >components
  echo "module_config { $(cat components) }" >files/d.dag
}

# Makes the record of some messages.
recorded_as() { # the messages
  (cd files && eval "$(write_record "$1" '{}')")
}

# A speed in metres a second stands in a field 2 of four bytes. It is 0.5, 1.25, -3.0078125 and 100; the last message has none.
plays_by_the_value_of_a_field() {
  begin 'plays by the value that a component file names'
  components_on_a 'value { channel: "/a" path: [2] kind: FLOAT scale: 1000 }' 'PassComponent ' 'FilterComponent lo: 1000 hi: 100000' \
    'SumComponent ' 'MaxComponent ' 'WindowComponent n: 2' 'ChangeComponent ' 'CountComponent ' 'HoldComponent delay: 5'
  recorded_as '[(b"/a", 10 * k, bytes.fromhex(it)) for k, it in enumerate(["150000003f", "08ff011500 00a03f", "15008040c0", "150000c842", "0807"])]'
  plays_the_files
  [ "$(sed -n '/^component "p0"/,/^end/p' files/trace)" = 'component "p0"
roles 00000
call 1/1 1 1@0=500
call 2/2 2 2@10=1250
call 3/3 3 3@20=-3007
call 4/4 4 4@30=100000
call 5/5 5 5@40
end DATA_WAIT next 6' ]
  count $? "$name: $(sed -n '/^component "p0"/,/^end/p' files/trace)"
}

# Each message is given once for each kind, on a channel of its own: fields of all forms on the wire, in this order.
plays_each_kind() {
  begin 'plays by values of each kind, with scales from 1 to 10^19'
  mkdir -p files
  (cd files && PYTHONPATH="$top/tools" python3 - <<'P'
from record import block, number, record, varint
from values import WIRE_TYPES
contents = [number(3, n) for n in (0, 1, 2, 2**31 - 1, 2**31, 2**32 - 1, 2**32 + 5, 2**63 - 1, 2**63, 2**64 - 1)]
contents += [varint(29) + n.to_bytes(4, "little") for n in (0, 1, 2**31, 2**32 - 1, 0x3F000000, 0xBFC00000, 0x7F800000, 0x7FC00000, 0x5F000000)]
contents += [varint(25) + n.to_bytes(8, "little") for n in (0, 1, 2**63, 2**64 - 1, 0x3FD3333333333333, 0xBFF8000000000000, 0x7FF0000000000000)]
contents += [number(3, 7) + block(3, b"\x08"), number(3, 7) + number(3, 9), number(3, 7) + b"\x1b", b"", b"\x18"]
ways = [(kind, 1) for kind in WIRE_TYPES] + [(kind, 10**k) for kind in ("FLOAT", "DOUBLE") for k in (1, 3, 9, 18, 19)]
channels = [b"/%d" % k for k in range(len(ways))]
with open("in.rec", "wb") as file:
    file.write(record([(it, 7 * k, content) for k, content in enumerate(contents) for it in channels]))
with open("p0.conf", "w") as file:
    for k, (kind, scale) in enumerate(ways):
        file.write(f'value {{ scale: {scale} kind: {kind} channel: "/{k}" path: 3 }}\n')
with open("d.dag", "w") as file:
    for k in range(len(ways)):
        config = f'name: "p{k}" config_file_path: "p{k}.conf" readers {{ channel: "/{k}" }}'
        print(f'module_config {{ components {{ class_name: "PassComponent" config {{ {config} }} }} }}', file=file)
        with open(f"p{k}.conf", "a") as conf:
            print(f'out: "/o{k}"', file=conf)
P
  )
  plays_the_files
  [ "$(grep -c '^call .*=' files/trace)" -gt 150 ]
  count $? "$name: only $(grep -c '^call .*=' files/trace) values"
}

# The value is in the sixteenth message, the greatest number of a field among them; and once more where the innermost one has another.
plays_by_a_long_path() {
  begin 'plays by a path of sixteen numbers'
  components_on_a 'value { channel: "/a" path: [1, 2, 3, 4, 5, 6, 7, 8, 9, 10, 11, 12, 13, 14, 15, 536870911] kind: UINT64 }' 'MaxComponent '
  (cd files && PYTHONPATH="$top/tools" python3 - <<'P'
from record import block, number, record
contents = [number(2**29 - 1, 41), number(2**29 - 1, 7), number(2**29 - 2, 99), number(2**29 - 1, 2**63 + 1)]
for place in range(15, 0, -1):
    contents = [(block(1, b"x") if place > 1 else b"") + block(place, it) for it in contents]
with open("in.rec", "wb") as file:
    file.write(record([(b"/a", time, it) for time, it in enumerate(contents)]))
P
  )
  plays_the_files
  [ "$(grep '^call' files/trace)" = 'call 1/1 1 1@0=41
call 2/2 2 2@1=41
call 3/3 3 -
call 4/4 4 3@3=9223372036854775807' ]
  count $? "$name: $(grep '^call' files/trace)"
}

# The answers of an external component have values, which the component behind it looks at; its own file and the other's may give them.
plays_by_the_values_of_answers() { # which file gives them
  begin "plays by the values of answers that the file of $1 gives"
  local kept='class_name: "FilterComponent" config { name: "q" config_file_path: "q.conf" readers { channel: "/o" } }'
  local sum='class_name: "SumComponent" config { name: "r" config_file_path: "r.conf" readers { channel: "/q" } readers { channel: "/a" } }'
  answered_by "$ANSWERED" '[(b"/o", k, block(4, number(1, 10 * k))) for k in (1, 2, 4)]' '{b"/o": (b"kind", b"described")}'
  sed -i "s|} }\$|} components { $kept } components { $sum } }|" files/d.dag
  echo 'out: "/q" lo: 15 hi: 100' >files/q.conf
  echo 'out: "/r"' >files/r.conf
  echo 'value { channel: "/o" path: [4, 1] kind: INT64 } value { channel: "/a" path: 1 kind: UINT32 }' >>"files/$1.conf"
  plays_the_files
  [ "$(grep '^call' files/trace)" = 'call 1/1 1 1@10=10
call 2/2 2 2@20=20
call 3/3 3 -
call 4/4 4 3@40=40
call 1/1 1 -
call 2/2 2 1@20=20
call 3/3 3 2@40=40
call 1/1 1 2 1@20=22
call 2/2 2 4 2@40=42' ]
  count $? "$name: $(grep '^call' files/trace)"
}

# Where a value is given that messages have anyhow, and where its channel has no message, all is as without it. A value that is found in
# another field makes another trace, which is not lawful without it.
plays_as_without() {
  begin 'plays as without a value where the value is that of a whole number'
  components_on_a '' 'PassComponent ' 'SumComponent ' 'ChangeComponent '
  recorded_as '[(b"/a", k, it)
    for k, it in enumerate([content_of(-3), b"", content_of(2) + content_of(9), b"\x08", b"\xff", b"\x10\x04", content_of(9)])]'
  run play --serial --dag d.dag --record in.rec --out was.rec --trace was
  ends 0 "$(cat out)" ''
  echo "out: \"/o0\" $A_VALUE value { channel: \"/none\" path: 2 kind: FLOAT }" >files/p0.conf
  plays_the_files
  holds files/out.rec files/was.rec
  holds files/trace files/was
  echo "out: \"/o0\" value { channel: \"/a\" path: 2 kind: SINT64 }" >files/p0.conf
  plays_the_files
  cp files/p0.conf kept
  echo 'out: "/o0"' >files/p0.conf
  verifies 1 '' 'cyber: trace: not a lawful run' --dag d.dag --record in.rec --out out.rec --trace trace
  cp kept files/p0.conf
  verifies 1 '' 'cyber: was: not a lawful run' --dag d.dag --record in.rec --out was.rec --trace was
}

# A record whose chunks are decoded side by side: 120,000 messages on two channels, of which one has values in a message that stands in
# another one.
plays_many_messages() {
  begin 'plays many messages by their values'
  components_on_a 'value { channel: "/a" path: [1, 3] kind: SFIXED32 }' 'SumComponent ' 'FilterComponent lo: -50 hi: 50'
  recorded_as '[(b"/b" if k % 3 else b"/a", 1000000 * k, b"\x0a\x05\x1d" + (7 * k % 201 - 100).to_bytes(4, "little", signed=True))
    for k in range(120000)]'
  plays_the_files
  rm -r files want
}

refuses_a_value() { # what is wrong, the line behind the file's name, and the component file behind its channel
  refuses_a_dag "a value $1" "p.conf: $2" PassComponent "$READS_A" "out: \"/o\" $3"
}

# Values are looked at behind everything else in a component file. The first of two is looked at whole before the second one.
refuses_values() {
  local all='value { }' it
  refuses_a_value 'that is no message' 'Shape "value[0]"' 'value: 3'
  refuses_a_value 'whose channel is no text' 'Shape "value[1].channel"' "$A_VALUE value { channel: 3 }"
  refuses_a_value 'without a channel' 'Missing 0 "channel"' 'value { path: 0 kind: NONE scale: 3 }'
  refuses_a_value 'with an empty channel' 'Missing 0 "channel"' 'value { channel: "" path: 0 kind: NONE scale: 3 }'
  refuses_a_value 'without a kind' 'Missing 0 "kind"' 'value { channel: "/a" path: 0 scale: 3 }'
  refuses_a_value 'without a path' 'PathLength 0 0 0' 'value { channel: "/a" kind: NONE scale: 3 }'
  refuses_a_value 'with an empty path' 'PathLength 0 1 0' "$A_VALUE value { channel: \"/b\" path: [] kind: NONE scale: 3 }"
  refuses_a_value 'with too long a path' 'PathLength 0 0 17' \
    'value { channel: "/a" path: [0, 2, 3, 4, 5, 6, 7, 8, 9, 10, 11, 12, 13, 14, 15, 16, 17] kind: NONE scale: 3 }'
  for it in 0 536870912 -1 -0 1.0 1e0 x '"1"' '{ }' 18446744073709551615; do
    refuses_a_value "whose path has $it" 'PathNumber 0 0' "value { channel: \"/a\" path: [1, $it] kind: NONE scale: 3 }"
  done
  for it in NONE double STRING MESSAGE GROUP SINT -SINT32 '"SINT32"' 5 1.5 '{ }'; do
    refuses_a_value "of the kind $it" 'NotKind 0 0' "value { channel: \"/a\" path: 1 kind: $it scale: 3 }"
  done
  for it in 0 2 20 101 -1 -10 1.0 1e3 10f x '"10"' '{ }' 9999999999999999999 18446744073709551615; do
    refuses_a_value "with the scale $it" 'NotScale 0 0' "value { channel: \"/a\" path: 1 kind: DOUBLE scale: $it }"
  done
  for it in INT32 INT64 UINT32 UINT64 SINT32 SINT64 FIXED32 FIXED64 SFIXED32 SFIXED64 BOOL ENUM; do
    refuses_a_value "of the kind $it with a scale" 'NotScale 0 0' "value { channel: \"/a\" path: 1 kind: $it scale: 10 }"
  done
  refuses_a_value 'with a scale before the next one' 'NotScale 0 1' "$A_VALUE value { channel: \"/b\" path: 1 kind: FLOAT scale: 3 } $all"
  refuses_a_value 'that is the last one' 'NotKind 0 2' "$A_VALUE $A_VALUE value { channel: \"/b\" path: 1 kind: NONE }"
  refuses_a_dag 'an overflow before a value' 'p.conf: NotOverflow 0' PassComponent "$READS_A" "$all out: \"/o\" on_overflow: LATEST"
  refuses_a_dag 'a parameter before a value' 'p.conf: NotWhole 0 "n"' WindowComponent "$READS_A" "$all out: \"/o\" n: 0"
  refuses_a_dag 'a channel that is missing before a value' 'p.conf: Missing 0 "out"' PassComponent "$READS_A" "$all"
  refuses_a_dag 'a value before its answers' 'p.conf: Missing 0 "channel"' ExternalComponent "$READS_A" \
    "out: \"/o\" answers: \"none.rec\" $all"
  begin 'refuses a value of a timer component'
  three_components 'Pass Pass Pass'
  echo 'value { channel: "/a" path: [] kind: BOOL }' >>files/t.conf
  run check --dag d.dag
  ends 1 '' 'cyber: t.conf: PathLength 3 0 0'
}

# As many as may be are taken, also for one channel.
refuses_too_many_values() {
  local k
  begin 'refuses more values than a file may have, before it looks at one'
  one_component PassComponent "$READS_A" 'out: "/o"'
  for ((k = 0; k < 257; k++)); do echo 'value { }'; done >>files/p.conf
  run check --dag d.dag
  ends 5 '' 'cyber: p.conf: limit TooManyValues passed: 257'
  begin 'takes as many values as a file may have'
  one_component PassComponent "$READS_A" 'out: "/o"'
  for ((k = 0; k < 255; k++)); do echo "value { channel: \"/$k\" path: $((k + 1)) kind: ENUM }"; done >>files/p.conf
  echo 'value { channel: "/a" path: 2 kind: BOOL }' >>files/p.conf
  recorded_as '[(b"/a", 0, number(2, 300)), (b"/200", 1, number(201, 300))]'
  run check --dag d.dag
  [ "$status" -eq 0 ] && [ "$(grep -c '^value ' out)" -eq 256 ]
  count $? "$name: status $status, $(grep -c '^value ' out) values"
  plays_the_files
  echo 'value { channel: "" path: 2 kind: BOOL }' >>files/p.conf
  run play --serial --dag d.dag --record in.rec --out out.rec --trace trace
  ends 5 '' 'cyber: p.conf: limit TooManyValues passed: 257'
}

# Writes components `p`, `q` and `r` that read /a, and the files that are given for them.
three_components() { # the classes of p, q and r, and their files
  local k names=(p q r) classes
  read -ra classes <<<"$1"
  mkdir -p files
  for k in 0 1 2; do
    echo "components { class_name: \"${classes[k]}Component\" config { name: \"${names[k]}\" config_file_path: \"${names[k]}.conf\"" \
      'readers { channel: "/a" } } }'
    printf 'out: "/%s" %s\n' "${names[k]}" "${@:k+2:1}" >"files/${names[k]}.conf"
  done >components
  echo "module_config { $(cat components) timer_components { class_name: \"CountComponent\" config { name: \"t\"" \
    'config_file_path: "t.conf" interval: 5 } } }' >files/d.dag
  echo 'out: "/t"' >files/t.conf
}

refuses_together() { # what is wrong, the line behind the DAG file's name, and the words of `three_components`
  begin "refuses $1"
  three_components "${@:3}"
  run check --dag d.dag
  ends 1 '' "cyber: d.dag: $2"
  recorded_as '[(b"/a", 0, b"")]'
  run play --serial --dag d.dag --record in.rec --out out.rec --trace trace
  ends 1 '' "cyber: d.dag: $2"
  lacks files/out.rec
}

# The value of each channel holds for the whole play, whatever file gives it.
refuses_values_that_do_not_fit_together() {
  local a='value { channel: "/a" path: [1, 2] kind: DOUBLE scale: 10 }' other
  for other in 'path: [1, 3] kind: DOUBLE scale: 10' 'path: [1] kind: DOUBLE scale: 10' 'path: [1, 2, 3] kind: DOUBLE scale: 10' \
    'path: [1, 2] kind: FLOAT scale: 10' 'path: [1, 2] kind: DOUBLE' 'path: [1, 2] kind: DOUBLE scale: 100'; do
    refuses_together "two values of a channel, the other with $other" 'ValueDiffers 0 2' 'Pass Pass Pass' "$a" '' "value { channel: \"/a\" $other }"
  done
  refuses_together 'two values of a channel in one file' 'ValueDiffers 1 1' 'Pass Pass Pass' '' "$a $A_VALUE" ''
  refuses_together 'the first value that differs' 'ValueDiffers 1 2' 'Pass Pass Pass' 'value { channel: "/b" path: 1 kind: BOOL }' "$a $a" \
    "value { channel: \"/b\" path: 1 kind: BOOL } $a $A_VALUE"
  refuses_together 'the value of a written channel' 'ValueWritten 0 2' 'Pass Pass Pass' "$a value { channel: \"/r\" path: 1 kind: BOOL }" '' ''
  refuses_together 'the value of its own channel' 'ValueWritten 1 1' 'Pass Pass Pass' '' 'value { channel: "/q" path: 1 kind: BOOL }' ''
  refuses_together 'the value of the channel of a timer component' 'ValueWritten 2 3' 'Pass Pass Pass' '' '' \
    'value { channel: "/t" path: 1 kind: BOOL }'
  refuses_together 'the value of ticks' 'ValueWritten 1 3' 'Pass Pass Pass' '' 'value { channel: "@timer/t" path: 1 kind: BOOL }' \
    'value { channel: "/q" path: 1 kind: BOOL }'
  refuses_together 'a written channel behind values that differ' 'ValueDiffers 0 2' 'Pass Pass Pass' \
    "value { channel: \"/p\" path: 1 kind: BOOL } $a" '' "$A_VALUE"
  refuses_together 'a written channel, but not that of answers' 'ValueWritten 1 2' 'Pass External Hold' \
    'value { channel: "/q" path: 1 kind: BOOL }' 'value { channel: "/r" path: 1 kind: BOOL }' 'delay: 5'
  refuses_together 'two writers before values' 'TwoWriters 0 1' 'Pass Pass Pass' "$a $A_VALUE" 'out: "/p"' ''
  refuses_together 'ticks that are written before values' 'TimerWritten 2 3' 'Pass Pass Pass' "$a $A_VALUE" '' 'out: "@timer/t"'
  refuses_together 'a cycle before values' 'TriggerCycle 1' 'Pass Pass Pass' "$a $A_VALUE" 'out: "/a"' ''
}

# Behind them comes the number of channels; a channel that only a value names is none.
refuses_values_before_channels() {
  begin 'refuses a value before too many channels'
  three_components 'Pass Pass Pass' 'value { channel: "/p" path: 1 kind: BOOL }' '' ''
  recorded_as '[(b"/%d" % k, k, b"") for k in range(1019)]'
  run play --serial --dag d.dag --record in.rec --out out.rec --trace trace
  ends 1 '' 'cyber: d.dag: ValueWritten 0 0'
  echo "out: \"/p\" $A_VALUE value { channel: \"/none\" path: 1 kind: BOOL }" >files/p.conf
  run play --serial --dag d.dag --record in.rec --out out.rec --trace trace
  ends 5 '' 'cyber: d.dag: limit TooManyChannels passed: 1025'
  recorded_as '[(b"/%d" % k, k, b"") for k in range(1018)]'
  plays_the_files
}

checks_values() {
  begin 'prints the values that component files give'
  three_components 'Pass External Pass' \
    'value { channel: "/a" path: [1, 2, 0x10] kind: DOUBLE scale: 0x3e8 } value { path: 3 path: 536870911 kind: UINT32 channel: "/b\"" }' \
    'answers: "q.rec" on_overflow: OLDEST value { channel: "/q" path: [1] kind: FLOAT }' \
    'value { channel: "/c" path: 1 kind: BOOL scale: 1 name: 3 }'
  echo 'out: "/t" value { channel: "/a" path: [1, 2, 16] kind: DOUBLE scale: 1000 }' >files/t.conf
  recorded_as '[(b"/q", 1, b"")]'
  mv files/in.rec files/q.rec
  run check --dag d.dag
  prints 'component "p" class PassComponent reads "/a" queue 1 writes "/p"
value "/a" path 1 2 16 kind DOUBLE scale 1000
value "/b\"" path 3 536870911 kind UINT32 scale 1
component "q" class ExternalComponent reads "/a" queue 1 writes "/q" overflow OLDEST answers "q.rec" 1
value "/q" path 1 kind FLOAT scale 1
component "r" class PassComponent reads "/a" queue 1 writes "/r"
value "/c" path 1 kind BOOL scale 1
timer "t" class CountComponent every 5 ms writes "/t"
value "/a" path 1 2 16 kind DOUBLE scale 1000
context "default_grp" processors 2 order "p" "q" "r" "t"
unknown r.conf value[0].name
ok'
}

plays_by_the_value_of_a_field
plays_each_kind
plays_by_a_long_path
plays_by_the_values_of_answers p
plays_by_the_values_of_answers r
plays_as_without
plays_many_messages
refuses_values
refuses_too_many_values
refuses_values_that_do_not_fit_together
refuses_values_before_channels
checks_values
