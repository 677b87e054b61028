# A part of tests/program.sh, which reads it: timer components, and their ticks among the messages of a play.

# Writes a DAG of one timer component that counts its ticks, and its file.
one_timer() { # its interval and its file
  local config="name: \"t\" config_file_path: \"t.conf\" interval: $1"
  mkdir -p files
  echo "module_config { timer_components { class_name: \"CountComponent\" config { $config } } }" >files/d.dag
  echo "$2" >files/t.conf
}

# Makes the record of some messages.
recorded() { # the messages, and the types and descriptions of channels
  (cd files && eval "$(write_record "$1" "$2")")
}

TICKING='component "t"
roles 000
call 1/1 1 1@2000000=1
call 2/2 2 2@3000000=2
call 3/3 3 3@4000000=3
end DATA_WAIT next 4
tape "/a" 1
tape "@timer/t" 1
tape "/n" 1
tape "@timer/t" 2
tape "/n" 2
tape "/a" 2
tape "@timer/t" 3
tape "/n" 3'

# The last tick has the time of the last message, behind which it stands. What was written is played again: its ticks and counts are
# shadowed, and others take their places.
plays_ticks_among_messages() {
  begin 'plays ticks among messages, and again over what was recorded of them'
  one_timer 1 'out: "/n"'
  recorded '[(b"/a", 1500000, content_of(1)), (b"/a", 4000000, content_of(2))]' '{}'
  run play --serial --dag d.dag --record in.rec --out out.rec --trace trace
  ends 0 'done: played 5, shadowed 0, calls 3, written 8' ''
  traces files/trace "cyber-trace 1
played 5 shadowed 0
$TICKING"
  is_lawful files out.rec trace --dag d.dag --record in.rec
  run play --serial --dag d.dag --record out.rec --out again.rec --trace again
  ends 0 'done: played 5, shadowed 6, calls 3, written 8' ''
  traces files/again "cyber-trace 1
played 5 shadowed 6
$TICKING"
  is_lawful files again.rec again --dag d.dag --record out.rec
  holds files/again.rec files/out.rec
}

# On threads a tick that comes before the last one was fetched takes its place.
plays_ticks_on_threads() {
  begin 'plays ticks on threads'
  one_timer 1 'out: "/n"'
  recorded '[(b"/a", 0, content_of(1)), (b"/a", 20000000, content_of(2))]' '{}'
  run play --dag d.dag --record in.rec --out out.rec --trace trace
  grep -Eqx 'done: played 23, shadowed 0, calls [1-9][0-9]*, written [0-9]+' out
  count $? "$name: it tells $(cat out err)"
  is_lawful files out.rec trace --dag d.dag --record in.rec
}

# The record has a type and a description for the channel of ticks, which the record that is written doesn't take over.
writes_ticks_without_a_type() {
  begin 'writes ticks without a type'
  one_timer 1 'out: "/n" out_type: "N"'
  recorded '[(b"@timer/t", 1, content_of(1)), (b"/a", 1000000, content_of(1))]' '{b"@timer/t": (b"T", b"D"), b"/a": (b"A", b"")}'
  run play --serial --dag d.dag --record in.rec --out out.rec --trace trace
  ends 0 'done: played 2, shadowed 1, calls 1, written 3' ''
  run info out.rec
  tail -n 3 out >channels
  traces channels 'channel "/a" messages 1 type "A"
channel "@timer/t" messages 1 type ""
channel "/n" messages 1 type "N"'
}

refuses_a_timer() { # what, the status, the line behind `cyber: `, the interval, the component file and the messages
  begin "refuses $1"
  one_timer "$4" "$5"
  recorded "$6" '{}'
  run play --serial --dag d.dag --record in.rec --out out.rec --trace trace
  ends "$2" '' "cyber: $3"
  lacks files/out.rec
  run verify --dag d.dag --record in.rec --out out.rec --trace trace
  ends "$2" '' "cyber: $3"
}

# A stop at a time counts the ticks up to it too.
stops_a_timer() {
  begin 'stops a timer component'
  one_timer 1 'out: "/n" on_overflow: OLDEST'
  recorded '[(b"/a", 1500000, content_of(1)), (b"/a", 4000000, content_of(2))]' '{}'
  run play --serial --dag d.dag --record in.rec --out out.rec --trace trace --stop t@2000000
  ends 0 'done: played 5, shadowed 0, calls 1, written 6' ''
  is_lawful files out.rec trace --dag d.dag --record in.rec --stop t@2000000
  [ "$(head -n 6 files/trace)" = 'cyber-trace 2
played 5 shadowed 0
component "t" overflow OLDEST
roles 000
call 1/1 1 1@2000000=1
end FINISHED next 2' ]
  count $? "$name: the trace begins with $(head -n 6 files/trace)"
}

# Two messages and 4,194,302 ticks, of which the component puts none out.
plays_as_many_ticks_as_may_be() {
  begin 'plays 4194304 messages and ticks'
  one_timer 1 'out: "/n" lo: 0 hi: 0'
  sed -i 's/CountComponent/FilterComponent/' files/d.dag
  recorded '[(b"/a", 1000000, content_of(1)), (b"/a", 4194302000000, content_of(1))]' '{}'
  run play --serial --dag d.dag --record in.rec --out out.rec --trace trace
  ends 0 'done: played 4194304, shadowed 0, calls 4194302, written 4194304' ''
  is_lawful files out.rec trace --dag d.dag --record in.rec
  rm -r files
}

checks_a_timer() {
  begin 'checks a timer component'
  one_timer 20 'out: "/n" on_overflow: OLDEST'
  run check --dag d.dag
  ends 0 'timer "t" class CountComponent every 20 ms writes "/n"
context "default_grp" processors 2 order "t"
ok' ''
}

plays_ticks_among_messages
plays_ticks_on_threads
writes_ticks_without_a_type
stops_a_timer
plays_as_many_ticks_as_may_be
checks_a_timer
refuses_a_timer 'ticks of an interval of 0' 1 'd.dag: ZeroInterval 0' 0 'out: "/n"' '[(b"/a", 1, content_of(1))]'
refuses_a_timer 'a component that writes ticks' 1 'd.dag: TimerWritten 0 0' 1 'out: "@timer/t"' '[(b"/a", 1, content_of(1))]'
refuses_a_timer 'more ticks than are played' 5 'in.rec: limit TooManyPlayed passed: 9223372036857' 1 'out: "/n"' \
  '[(b"/a", 0, content_of(1)), (b"/a", 9223372036854775808, content_of(1))]'
refuses_a_timer 'one tick more than may be played' 5 'in.rec: limit TooManyPlayed passed: 4194305' 1 'out: "/n"' \
  '[(b"/a", 1000000, content_of(1)), (b"/a", 4194303000000, content_of(1))]'
