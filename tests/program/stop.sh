# shellcheck shell=bash disable=SC2154
# A part of tests/program.sh, which reads it: plays with a stop, on one thread.

# Plays messages of `/a`, each with its time as its value, through one component with a stop; compares the line and the trace with what is
# given, and the record with what a Python script makes of the same files.
plays_with_a_stop() { # what it shows, the class, the name, the component file, the times, the stop, the line, and the trace from `roles` on
  begin "plays with a stop: $1"
  one_component "$2" "$READS_A" "$4"
  sed -i "s/name: \"p\"/name: \"$3\"/" files/d.dag
  (cd files && eval "$(write_record "[(b\"/a\", k, content_of(k)) for k in [$5]]" '{}')")
  (cd files && python3 "$top/tests/replay.py" ../rec ../trace ../line --dag d.dag --record in.rec --stop "$6")
  run play --dag d.dag --record in.rec --out out.rec --trace trace --serial --stop "$6"
  ends 0 "$7" ''
  is_lawful files out.rec trace --dag d.dag --record in.rec --stop "$6"
  [ "$(tail -n +4 files/trace)" = "$8" ]
  count $? "$name: the trace is '$(tail -n +4 files/trace)'"
  holds files/out.rec rec
  holds files/trace trace
}

refuses_a_stop() { # what is wrong, the status, the line behind `cyber: `, the stop, and a command that changes the files
  begin "refuses $1"
  one_component PassComponent "$READS_IN" 'out: "/o"'
  cp "$top/examples/pass/two.rec" files/in.rec
  (cd files && eval "$5")
  run play --dag d.dag --record in.rec --out out.rec --trace trace --stop="$4" --serial
  ends "$2" '' "cyber: $3"
  lacks files/out.rec
  lacks files/trace
}

# Plays the drive with the stop of `examples/README.md`, and compares the line and the end of the component's part with what stands there.
plays_the_drive_with_a_stop() {
  begin 'plays the drive with the stop of the examples'
  local here=$PWD
  (cd "$top" && exec "$program" play --serial "${drive[@]}" --out "$here/out.rec" --trace "$here/out.trace" \
    --stop margin@1700000010000000000) >out 2>err
  status=$?
  is_lawful "$top" "$here/out.rec" "$here/out.trace" "${drive[@]}" --stop margin@1700000010000000000
  ends 0 "$(sed -n '/^### A component is stopped/,$s/^    done: /done: /p' "$top/examples/README.md")" ''
  [ "$(sed -n '/^component "margin"/,/^end/p' out.trace | tail -n 2)" = \
    "$(sed -n '/^    call 465/,/^    end/s/^    //p' "$top/examples/README.md")" ]
  count $? "$name: it ends with $(sed -n '/^component "margin"/,/^end/p' out.trace | tail -n 2)"
}

# A frame is held back while `late` is stopped. Whose trigger is stopped goes on, and gets nothing more.
for stop in margin@1700000010000000000 late@1700000005010000000 smooth@1700000004700000000 frames@0; do
  plays_as_described "${drive[@]}" --stop "$stop"
  plays_as_described "${drive[@]}" --sched examples/drive/drive.sched --stop="$stop"
done
plays_the_drive_with_a_stop
plays_with_a_stop 'between two messages' PassComponent p 'out: "/o"' '1, 2, 3, 4' p@2 'done: played 4, shadowed 0, calls 2, written 6' \
  'roles 0000
call 1/1 1 1@1=1
call 2/2 2 2@2=2
end FINISHED next 3
tape "/a" 1
tape "/o" 1
tape "/a" 2
tape "/o" 2
tape "/a" 3
tape "/a" 4'
plays_with_a_stop 'behind all messages' PassComponent p 'out: "/o"' '1, 2, 3, 4' p@9 'done: played 4, shadowed 0, calls 4, written 8' \
  'roles 0000
call 1/1 1 1@1=1
call 2/2 2 2@2=2
call 3/3 3 3@3=3
call 4/4 4 4@4=4
end DATA_WAIT next 5
tape "/a" 1
tape "/o" 1
tape "/a" 2
tape "/o" 2
tape "/a" 3
tape "/o" 3
tape "/a" 4
tape "/o" 4'
plays_with_a_stop 'before all messages' PassComponent p 'out: "/o"' '1, 2, 3, 4' p@0 'done: played 4, shadowed 0, calls 0, written 4' \
  'roles 0000
end FINISHED next 0
tape "/a" 1
tape "/a" 2
tape "/a" 3
tape "/a" 4'
plays_with_a_stop 'without messages' PassComponent p 'out: "/o"' '' p@18446744073709551615 \
  'done: played 0, shadowed 0, calls 0, written 0' 'roles -
end FINISHED next 0'
plays_with_a_stop 'behind all of one time, in a record whose times fall, by a name with an @' PassComponent p@1 'out: "/o"' '7, 7, 8, 7' \
  p@1@00000000000000000007 'done: played 4, shadowed 0, calls 3, written 7' 'roles 0000
call 1/1 1 1@7=7
call 2/2 2 2@7=7
call 3/3 3 3@7=7
end FINISHED next 4
tape "/a" 1
tape "/o" 1
tape "/a" 2
tape "/o" 2
tape "/a" 3
tape "/o" 3
tape "/a" 4'
plays_with_a_stop 'while an output is held' HoldComponent h 'out: "/o" delay: 5' '1, 2, 10' h@1 \
  'done: played 3, shadowed 0, calls 1, written 4' 'roles 000
call 1/1 1 1@6=1
end FINISHED next 2
tape "/a" 1
tape "/a" 2
tape "/a" 3
tape "/o" 1'
plays_with_a_stop 'while an output is held to the end' HoldComponent h 'out: "/o" delay: 5' '1, 2' h@2 \
  'done: played 2, shadowed 0, calls 1, written 3' 'roles 00
call 1/1 1 1@6=1
end FINISHED next 2
tape "/a" 1
tape "/a" 2
tape "/o" 1'
plays_with_a_stop 'behind the last call' TakeComponent p 'out: "/o" n: 1' '1, 2' p@1 \
  'done: played 2, shadowed 0, calls 1, written 3' 'roles 00
call 1/1 1 1@1=1
end FINISHED next 2
tape "/a" 1
tape "/o" 1
tape "/a" 2'

refuses_a_stop 'a stop of no component' 1 'd.dag: StopUnknown "q"' q@5 ''
refuses_a_stop 'a stop by the name of a channel' 1 'd.dag: StopUnknown "/o"' /o@5 ''
refuses_a_stop 'a stop by a name with an @ behind it' 1 'd.dag: StopUnknown "p@1"' p@1@5 ''
refuses_a_stop 'a stop by a name that is told with escapes' 1 'd.dag: StopUnknown "p\"\\\n\001é"' $'p"\\\n\001é@5' ''
refuses_a_stop 'a record before a stop' 1 'in.rec: not a record' q@5 'echo no record >in.rec'
refuses_a_stop 'a wiring before a stop' 1 'd.dag: TriggerCycle 0' q@5 "$A_CYCLE"
