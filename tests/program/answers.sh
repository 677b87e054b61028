# shellcheck shell=bash disable=SC2154
# A part of tests/program.sh, which reads it: components whose answers come from a record.

# Plays it, and compares record, trace and line with what a Python script makes of the same files.
plays_answers() { # what it shows, and the words of `answered_by`
  begin "$1"
  answered_by "${@:2}"
  mkdir -p want
  (cd files && python3 "$top/tests/replay.py" ../want/rec ../want/trace ../want/line --dag d.dag --record in.rec)
  run play --serial --dag d.dag --record in.rec --out out.rec --trace trace
  ends 0 "$(cat want/line)" ''
  both_whole
  is_lawful files out.rec trace --dag d.dag --record in.rec
}

# The first call has no answer, and neither has the fourth.
puts_out_answers() {
  plays_answers 'puts out the answer of each call' "$ANSWERED" \
    '[(b"/o", 0, b"never"), (b"/x", 1, b"elsewhere"), (b"/o", 2, b"\x08\x0e"), (b"/o", 3, b"\xff\xff"), (b"/o", 9, b"never")]' \
    '{b"/o": (b"kind", b"described")}'
  traces files/trace 'cyber-trace 1
played 4 shadowed 0
component "p"
roles 0000
call 1/1 1 -
call 2/2 2 1@20=7
call 3/3 3 2@30
call 4/4 4 -
end DATA_WAIT next 5
tape "/a" 1
tape "/a" 2
tape "/o" 1
tape "/a" 3
tape "/o" 2
tape "/a" 4'
  plays_answers 'takes the type of the component file where the answers have none' "$ANSWERED" \
    '[(b"/o", 1, b"\x08\x0e")]' '{b"/o": (b"", b"described")}'
  plays_answers 'puts out nothing where no message of the answers is on its channel' "$ANSWERED" '[(b"/x", 1, b"\x08\x0e")]' '{}'
  plays_answers 'puts out nothing where no answers are named' 'out: "/o" answers: ""' '[(b"/o", 1, b"\x08\x0e")]' '{}'
}

# A component behind it passes its answers on, and one of the same class has answers of its own.
passes_answers_on() {
  begin 'passes answers on, with their contents'
  answered_by "$ANSWERED" '[(b"/o", 1, b"first"), (b"/o", 3, b"third")]' '{}'
  local pass='class_name: "PassComponent" config { name: "q" config_file_path: "q.conf" readers { channel: "/o" } }'
  local other='class_name: "ExternalComponent" config { name: "r" config_file_path: "r.conf" readers { channel: "/q" } }'
  sed -i "s|} }\$|} components { $pass } components { $other } }|" files/d.dag
  echo 'out: "/q"' >files/q.conf
  echo 'out: "/r" answers: "r.rec"' >files/r.conf
  (cd files && mv in.rec all.rec && eval "$(write_record '[(b"/r", 2, b"second of r")]' '{}')" && mv in.rec r.rec && mv all.rec in.rec)
  mkdir -p want
  (cd files && python3 "$top/tests/replay.py" ../want/rec ../want/trace ../want/line --dag d.dag --record in.rec)
  run play --serial --dag d.dag --record in.rec --out out.rec --trace trace
  ends 0 "$(cat want/line)" ''
  both_whole
  is_lawful files out.rec trace --dag d.dag --record in.rec
  run play --dag d.dag --record in.rec --out out.rec --trace trace
  [ "$status" -eq 0 ]
  count $? "$name: on threads the status is $status"
  is_lawful files out.rec trace --dag d.dag --record in.rec
}

refuses_answers() { # what is wrong, the status, the line behind `cyber: `, the answers' messages, and a command that changes the files
  begin "refuses answers $1"
  answered_by "$ANSWERED" "$4" '{}'
  (cd files && eval "$5")
  run play --serial --dag d.dag --record in.rec --out out.rec --trace trace
  ends "$2" '' "cyber: $3"
  lacks files/out.rec
  lacks files/trace
  run check --dag d.dag
  ends "$2" '' "cyber: $3"
}

checks_answers() {
  begin 'prints the record of answers of a component, and how many it has'
  answered_by "$ANSWERED" '[(b"/o", 1, b""), (b"/x", 1, b""), (b"/o", 3, b"")]' '{}'
  run check --dag d.dag
  prints 'component "p" class ExternalComponent reads "/a" queue 1 writes "/o" answers "p.rec" 2
context "default_grp" processors 2 order "p"
ok'
  begin 'knows no answers of another class'
  one_component PassComponent "$READS_A" 'out: "/o" answers: "none.rec"'
  run check --dag d.dag
  prints 'component "p" class PassComponent reads "/a" queue 1 writes "/o"
context "default_grp" processors 2 order "p"
unknown p.conf answers
ok'
}

refuses_too_many_answers() {
  begin 'refuses more answers than there can be calls'
  answered_by "$ANSWERED" '[]' '{}'
  python3 "$top/tests/large.py" files/p.rec answers /o 4194305
  run check --dag d.dag
  ends 5 '' 'cyber: p.rec: limit TooManyAnswers passed: 4194305'
  python3 "$top/tests/large.py" files/p.rec answers /o 4194304
  run check --dag d.dag
  [ "$status" -eq 0 ] && grep -q 'answers "p.rec" 4194304' out
  count $? "$name: status $status, $(head -c 300 out err)"
  rm -r files
}

puts_out_answers
passes_answers_on
checks_answers
refuses_answers 'of one call twice' 1 'p.rec: AnswerTwice 3' '[(b"/o", 1, b""), (b"/o", 3, b""), (b"/o", 3, b"")]' true
refuses_answers 'behind one of a later call' 1 'p.rec: AnswersFall 2' '[(b"/o", 3, b""), (b"/x", 1, b""), (b"/o", 2, b""), (b"/o", 2, b"")]' true
refuses_answers 'to the number 0 behind another' 1 'p.rec: AnswersFall 0' '[(b"/o", 3, b""), (b"/o", 0, b"")]' true
refuses_answers 'that are not there' 3 'p.rec: the store failed' '[]' 'rm p.rec'
refuses_answers 'that are no record' 1 'p.rec: not a record' '[]' 'echo no >p.rec'
refuses_answers 'before the next component file' 1 'p.rec: AnswerTwice 3' '[(b"/o", 3, b""), (b"/o", 3, b"")]' \
  "sed -i 's|} }\$|} components { class_name: \"PassComponent\" config { name: \"q\" config_file_path: \"none\" readers { channel: \"/o\" } } } }|' d.dag"
refuses_answers 'behind a fault of the component file' 1 'p.conf: NotOverflow 0' '[(b"/o", 3, b""), (b"/o", 3, b"")]' \
  "echo 'on_overflow: LATEST' >>p.conf"

begin 'writes no output over the record of answers'
answered_by "$ANSWERED" '[(b"/o", 1, b"")]' '{}'
cp files/p.rec was
run play --serial --dag d.dag --record in.rec --out ./p.rec --trace trace
ends 1 '' 'cyber: ./p.rec: is also p.rec'
holds files/p.rec was

refuses_too_many_answers
