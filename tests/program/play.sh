# shellcheck shell=bash disable=SC2154
# A part of tests/program.sh, which reads it: serial plays of a drive, of a burst and at random, and what `play` refuses.

# Plays a record of the drive serially, with the program's files in the test's folder.
plays_the_drive() { # the record, the name of what is written, and the line
  begin "plays $1 through the components of a drive"
  local here=$PWD
  mkdir -p "$work/drive"
  (cd "$top" && exec "$program" play --serial --dag examples/drive/drive.dag --record "$1" \
    --out="$work/drive/$2.rec" --trace "$work/drive/$2.trace") >"$here/out" 2>"$here/err"
  status=$?
  ends 0 "$3" ''
  is_lawful "$top" "$work/drive/$2.rec" "$work/drive/$2.trace" --dag examples/drive/drive.dag --record "$1"
  [ "$(sed -n 2p "$work/drive/$2.trace")" = "$(sed 's/done: //; s/, calls.*//; s/,//' <<<"$3")" ]
  count $? "$name: the trace's second line is '$(sed -n 2p "$work/drive/$2.trace")'"
}

# Plays messages of one component, and compares the line and the component's part of the trace.
plays_one_component() { # what it shows, the record, further words in one text, the line and the component's calls
  begin "plays $1"
  one_component PassComponent "$READS_IN" 'out: "/o"'
  cp "$top/examples/pass/$2" files/in.rec
  # shellcheck disable=SC2086
  run play --dag d.dag --record in.rec --out out.rec --trace trace --serial $3
  ends 0 "$4" ''
  # shellcheck disable=SC2086
  is_lawful files out.rec trace --dag d.dag --record in.rec $3
  [ "$(grep '^call' files/trace)" = "$5" ]
  count $? "$name: the calls are '$(grep '^call' files/trace)'"
}

# Plays a burst of six messages through a component that holds them back one by one, and keeps two; compares the line and the trace up to
# its tape with what is given, and all with what a Python script makes of the same files.
goes_on_after_a_burst() { # what it does then, the word for it, the line, and the trace
  begin "goes on after a burst $1"
  one_component HoldComponent 'config_file_path: "p.conf" readers { channel: "/a" pending_queue_size: 2 }' \
    "out: \"/o\" delay: 10 on_overflow: $2"
  (cd files && eval "$(write_record '[(b"/a", 100 + k, content_of(k)) for k in range(6)]' '{}')")
  (cd files && python3 "$top/tests/replay.py" ../rec ../trace ../line --dag d.dag --record in.rec)
  run play --dag d.dag --record in.rec --out out.rec --trace trace --serial
  ends 0 "$3" ''
  is_lawful files out.rec trace --dag d.dag --record in.rec
  [ "$(grep -v '^tape' files/trace)" = "$4" ]
  count $? "$name: the trace is '$(grep -v '^tape' files/trace)'"
  holds files/out.rec rec
  holds files/trace trace
}

plays_at_random() { # how many records
  begin "plays $1 random records through random components"
  python3 "$top/tests/replays.py" "$program" "$1" 1 >report
  count $? "$name: $(head -n 1 report)"
}

# Five components read /a, on which more messages are played than may be planned for all of them.
plans_too_many() {
  begin 'refuses to plan more entries than a run keeps'
  mkdir files
  python3 - "$top/tools" <<'P'
import sys
sys.path.insert(0, sys.argv[1])
from record import number, record
with open("files/in.rec", "wb") as file:
    file.write(record([(b"/a", k, number(1, 2)) for k in range(1_048_576)] + [(b"/z", 1_048_576, number(1, 2))]))
with open("files/d.dag", "w") as file:
    for k in range(5):
        config = f'name: "p{k}" config_file_path: "p{k}.conf" readers {{ channel: "/a" }}'
        print(f'module_config {{ components {{ class_name: "PassComponent" config {{ {config} }} }} }}', file=file)
        with open(f"files/p{k}.conf", "w") as conf:
            print(f'out: "/o{k}"', file=conf)
P
  run play --serial --dag d.dag --record in.rec --out out.rec --trace trace
  ends 5 '' 'cyber: in.rec: limit TooMany passed: 16777217'
  lacks files/out.rec
}

# Plays where one of the two files can't be made, since a folder has its name.
plays_without() { # that file
  begin "plays with a folder as the $1"
  one_component PassComponent "$READS_IN" 'out: "/o"'
  cp "$top/examples/pass/two.rec" files/in.rec
  (cd files && python3 "$top/tests/replay.py" ../want.rec ../want.trace ../want.line --dag d.dag --record in.rec)
  mkdir "files/$1"
  run play --serial --dag d.dag --record in.rec --out out.rec --trace trace
  ends 3 '' "cyber: $1: the store failed"
}

plays_the_drive examples/drive/drive.rec first 'done: played 3205, shadowed 0, calls 2370, written 5573'
plays_the_drive "$work/drive/first.rec" second 'done: played 3205, shadowed 2368, calls 2370, written 5573'

plays_as_described "${drive[@]}"
plays_as_described "${drive[@]}" --sched examples/drive/drive.sched
plays_as_described "${drive[@]}" --channels /wheel/speed,/map/limit --begin 1700000005000000000
plays_as_described "${drive[@]}" --drop /map/limit --end 1700000005000000000
plays_as_described --dag examples/drive/heartbeat.dag --record examples/drive/drive.rec
plays_as_described --dag examples/drive/heartbeat.dag --record examples/drive/drive.rec --channels /imu/yaw --stop sampled@1700000007000000000
python3 "$top/bench/made.py" 3000 "$work/made"
plays_as_described --dag "$work/made.dag" --record "$work/made.record"
plays_at_random 100
plays_one_component 'a record' two.rec '' 'done: played 2, shadowed 0, calls 2, written 4' \
  'call 1/1 1 1@100=7
call 2/2 2 2@100=-980'
plays_one_component 'a record up to a time' two.rec '--begin=00 --end 99' 'done: played 0, shadowed 0, calls 0, written 0' ''
plays_one_component 'what is not dropped' two.rec '--drop /x,/in' 'done: played 0, shadowed 0, calls 0, written 0' ''
plays_one_component 'the channels that are wanted' one.rec '--channels /y,/in --end 18446744073709551615' \
  'done: played 1, shadowed 0, calls 1, written 2' 'call 1/1 1 1@100=7'

plays_as_described --dag examples/burst/burst.dag --record examples/burst/burst.rec
goes_on_after_a_burst 'at the newest message' NEWEST 'done: played 6, shadowed 0, calls 2, written 8' \
  'cyber-trace 1
played 6 shadowed 0
component "p"
roles 000000
call 1/1 1 1@110=0
call 6/6 6 2@115=5
end DATA_WAIT next 7'
goes_on_after_a_burst 'at the oldest message that is kept' OLDEST 'done: played 6, shadowed 0, calls 3, written 9' \
  'cyber-trace 2
played 6 shadowed 0
component "p" overflow OLDEST
roles 000000
call 1/1 1 1@110=0
call 5/6 5 2@114=4
call 6/6 6 3@115=5
end DATA_WAIT next 7'

plans_too_many
plays_without out.rec
lacks files/trace
plays_without trace
holds files/out.rec want.rec

# What stands first in the way is told, though what comes behind it is wrong too.
refuses_a_replay 'a DAG before a component file' 1 'd.dag: NoComponents' 'echo >d.dag; echo out >p.conf'
refuses_a_replay 'a component file before the scheduler file' 1 'p.conf: Missing 0 "out"' 'echo >p.conf; echo >s.sched'
refuses_a_replay 'no component file before the scheduler file' 3 'p.conf: the store failed' 'rm p.conf; echo >s.sched'
refuses_a_replay 'a scheduler file before the record' 1 's.sched: NoGroup' 'echo >s.sched; echo no record >in.rec'
refuses_a_replay 'a record before the wiring' 1 'in.rec: not a record' "$A_SCHED; $A_CYCLE; echo no record >in.rec"
refuses_a_replay 'no record before the wiring' 3 'in.rec: the store failed' "$A_SCHED; $A_CYCLE; rm in.rec"
refuses_a_replay 'a text' 1 'in.rec: not a record' "$A_SCHED; echo no record >in.rec"
refuses_a_replay 'a record that is cut' 1 'in.rec: at 2113: Cut' "$A_SCHED; truncate -s 2150 in.rec"
refuses_a_replay 'a record of another kind' 1 'in.rec: at 2064: Kind 9' \
  "$A_SCHED; truncate -s 2064 in.rec; printf '\\x09\\0\\0\\0\\0\\0\\0\\0\\0\\0\\0\\0\\0\\0\\0\\0' >>in.rec"
refuses_a_replay 'a record that is not there' 3 'in.rec: the store failed' "$A_SCHED; rm in.rec"
refuses_a_replay 'a record that is too long' 5 'in.rec: limit FileTooLarge passed: 2147483649' \
  "$A_SCHED; truncate -s 2147483649 in.rec"
refuses_a_replay 'without its scheduler file' 3 's.sched: the store failed' ''
refuses_a_replay 'a cycle' 1 'd.dag: TriggerCycle 0' "$A_SCHED; echo 'out: \"/in\"' >p.conf"
