# A part of tests/program.sh, which reads it: files that are refused, each with its line, and files that are as large as may be.

# The record has one message more than may be played, which comes last.
plays_as_many_as_may_be_played() {
  begin 'plays as many messages as may be played, and refuses to play one more'
  one_component PassComponent 'config_file_path: "p.conf" readers { channel: "/b" }' 'out: "/o"'
  python3 "$top/tests/large.py" files/in.rec messages /a 4194304 1 /a 1 2
  run play --serial --dag d.dag --record in.rec --out out.rec --trace trace
  ends 5 '' 'cyber: in.rec: limit TooManyPlayed passed: 4194305'
  lacks files/out.rec
  lacks files/trace
  run play --serial --dag d.dag --record in.rec --out out.rec --trace trace --stop q@1
  ends 1 '' 'cyber: d.dag: StopUnknown "q"'
  run verify --dag d.dag --record in.rec --out out.rec --trace trace
  ends 5 '' 'cyber: in.rec: limit TooManyPlayed passed: 4194305'
  run play --serial --dag d.dag --record in.rec --out out.rec --trace trace --end 1
  ends 0 'done: played 4194304, shadowed 0, calls 0, written 4194304' ''
  is_lawful files out.rec trace --dag d.dag --record in.rec --end 1
  [ "$(tail -n 1 files/trace)" = 'tape "/a" 4194304' ]
  count $? "$name: the trace ends with '$(tail -n 1 files/trace)'"
  rm -r files
}

# Each of 64 components reads 258,109 messages, is called once, on the only one of its first channel, and writes one. The tape has all
# 258,176, three of which nobody reads: 16,777,216 entries. The record has a fourth of these, which comes last.
plays_as_many_as_may_be_planned() {
  begin 'plays as many entries as may be planned, and refuses to plan one more'
  mkdir files
  side_by_side SumComponent 64 /s /a /b /c
  python3 "$top/tests/large.py" files/in.rec messages /a 86036 1 /b 86036 1 /c 86036 1 /s 1 2 /z 3 2 /z 1 3
  run play --serial --dag d.dag --record in.rec --out out.rec --trace trace
  ends 5 '' 'cyber: in.rec: limit TooMany passed: 16777217'
  lacks files/out.rec
  lacks files/trace
  run play --serial --dag d.dag --record in.rec --out out.rec --trace trace --stop q@1
  ends 1 '' 'cyber: d.dag: StopUnknown "q"'
  run verify --dag d.dag --record in.rec --out out.rec --trace trace
  ends 5 '' 'cyber: in.rec: limit TooMany passed: 16777217'
  run play --serial --dag d.dag --record in.rec --out out.rec --trace trace --end 2
  ends 0 'done: played 258112, shadowed 0, calls 64, written 258176' ''
  is_lawful files out.rec trace --dag d.dag --record in.rec --end 2
  [ "$(grep '^call' files/trace | sort | uniq -c)" = '     64 call 1/1 1 86036 86036 86036 1@2=4' ]
  count $? "$name: the calls are not 64 sums of 4"
  rm -r files
}

# Tells of a record of one channel in which something is as large as may be.
tells_of_the_largest() { # what is large, the bytes of the file, how many chunks and messages it has, and their time
  begin "tells of a record with the largest $1"
  mkdir files
  python3 "$top/tests/large.py" files/in.rec "$1" 268435456
  run info in.rec
  prints "file in.rec bytes $2
version 0.0 complete no compress 0
channels 1 chunks $3 messages $3
time $4 to $4
index absent
channel \"/a\" messages $3 type \"\""
}

# The scheduler file is as long as may be: spaces stand behind its text.
checks_the_longest_file() {
  begin 'checks a configuration file that is as long as may be'
  one_component PassComponent "$READS_A" 'out: "/o"'
  (cd files && eval "$A_SCHED" && printf '%*s' $((16777216 - $(stat -c %s s.sched))) '' >>s.sched)
  [ "$(stat -c %s files/s.sched)" = 16777216 ]
  count $? "$name: it has $(stat -c %s files/s.sched) bytes"
  run check --dag d.dag --sched s.sched
  prints 'component "p" class PassComponent reads "/a" queue 1 writes "/o"
context "g" processors 1 order "p"
ok'
}

# A command that writes a DAG of these modules.
write_dag() { # what each of them has
  echo "echo '$(printf 'module_config { %s } ' "$@")' >d.dag"
}

plays_as_many_as_may_be_played
plays_as_many_as_may_be_planned

tells_no_record 'a content that is too long' 5 'limit ContentTooLarge passed: 268435457' \
  "python3 '$top/tests/large.py' in.rec content 268435457"
tells_no_record 'channels that are too long' 5 'limit ChannelsTooLarge passed: 268435457' \
  "python3 '$top/tests/large.py' in.rec channel 268435457"
tells_of_the_largest content 268437554 1 1
tells_of_the_largest channel 268437543 0 0
checks_the_longest_file

refuses_a_replay 'more channels than have names' 5 'd.dag: limit TooManyChannels passed: 1025' \
  "$A_SCHED; $(write_record '[(b"/%d" % k, 1, number(1, 2)) for k in range(1023)]' '{}')"

refuses_a_dag 'too many readers' 'd.dag: TooManyReaders 0 5' PassComponent 'readers [ {}, {}, {}, {}, {} ]' ''
refuses_a_dag 'too few readers' 'd.dag: TooFewReaders 0 1' SelectComponent "$READS_A" ''
refuses_a_dag 'a channel that is read twice' 'd.dag: ReaderTwice 0 "/a"' SumComponent "$READS_A readers { channel: \"/a\" }" ''

A_COMPONENT="components { class_name: \"PassComponent\" config { name: \"p\" $READS_A } }"
refuses_files 'a timer component without a name' 1 'cyber: d.dag: Missing 1 "name"' \
  "$(write_dag "$A_COMPONENT" 'timer_components [ {}, {} ]')"
refuses_files 'a name that is given twice' 1 'cyber: d.dag: NameTwice 0 1' "$(write_dag "$A_COMPONENT" "$A_COMPONENT")"
refuses_files 'two components that write one channel' 1 'cyber: d.dag: TwoWriters 0 1' \
  "$(write_dag "$A_COMPONENT" "${A_COMPONENT/name: \"p\"/name: \"q\"}"); $A_SCHED"
refuses_files 'too many components' 5 'cyber: d.dag: limit TooMany passed: 65' \
  "$(write_dag "components [ {}$(printf ', {}%.0s' {1..64}) ]")"
refuses_files 'a text that is too deep' 5 'cyber: d.dag: line 1 column 130: TooDeep' "printf 'a{%.0s' {1..65} >d.dag"
refuses_files 'a group that is given twice' 1 'cyber: s.sched: GroupTwice "g"' \
  "echo 'scheduler_conf { classic_conf { groups [ { name: \"g\" }, { name: \"g\" } ] } }' >s.sched"

while IFS='|' read -r text place; do
  refuses_files "the text '$text'" 1 "cyber: s.sched: line 1 $place" "echo '$text' >s.sched"
done <<'T'
a: $|column 4: Token
a: 08|column 4: Number
a: "b|column 4: Quote
a: "\q"|column 5: Escape
[a]: 1|column 1: Extension
1|column 1: Name
a 1|column 3: Colon
a: }|column 4: Value
a: 1 ]|column 6: Close
T
