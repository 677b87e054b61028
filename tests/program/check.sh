# shellcheck shell=bash disable=SC2154
# A part of tests/program.sh, which reads it: `check`.

checks_one_component() {
  begin 'prints a component, its context and its unknown field'
  one_component PassComponent 'config_file_path: "p.conf" readers { channel: "/a" pending_queue_size: 0 }' \
    'out: "/o" colour: 3'
  run check --dag d.dag
  prints 'component "p" class PassComponent reads "/a" queue 1 writes "/o"
context "default_grp" processors 2 order "p"
unknown p.conf colour
ok'
  run check --dag=d.dag
  count $((status)) "$name: an option and its value in one word"
  [ "$(ls files)" = "$(printf 'd.dag\np.conf')" ]
  count $? "$name: a file was made"
}

checks_the_drive() { # the words
  begin "prints what the files of a drive say, for '$*'"
  (cd "$top" && exec "$program" check "$@") >out 2>err
  status=$?
  prints "$(sed -n '/^    component "smooth"/,/^    ok$/s/^    //p' "$top/examples/README.md")"
}

checks_one_component
checks_the_drive --dag examples/drive/drive.dag --sched examples/drive/drive.sched
checks_the_drive --sched=examples/drive/drive.sched --dag=examples/drive/drive.dag
checks_the_drive --sched examples/drive/drive.sched --dag=examples/drive/drive.dag

refuses_a_dag 'a class that is not known' 'd.dag: UnknownClass 0' Foo "$READS_A" 'out: "/o"'
refuses_a_dag 'a component without a reader' 'd.dag: NoReader 0' PassComponent 'config_file_path: "p.conf"' 'out: "/o"'
refuses_a_dag 'a component without a file' 'd.dag: Missing 0 "config_file_path"' PassComponent 'readers { channel: "/a" }' ''
refuses_a_dag 'a parameter that is missing' 'p.conf: Missing 0 "hi"' FilterComponent "$READS_A" 'out: "/o" lo: 1'
refuses_a_dag 'a parameter that is no number' 'p.conf: NotWhole 0 "lo"' FilterComponent "$READS_A" 'out: "/o" lo: "x" hi: 1'
refuses_a_dag 'a component that goes on in no known way' 'p.conf: NotOverflow 0' PassComponent "$READS_A" \
  'out: "/o" on_overflow: "OLDEST" n: 3'
refuses_a_dag 'a component without a channel' 'p.conf: Missing 0 "out"' PassComponent "$READS_A" 'colour: 3'
refuses_a_dag 'a value of another kind' 'p.conf: Shape "out"' PassComponent "$READS_A" 'out: 3'
refuses_a_dag 'a text with a fault' 'p.conf: line 1 column 6: Quote' PassComponent "$READS_A" 'out: "/o'
refuses_a_dag 'a component that triggers itself' 'd.dag: TriggerCycle 0' PassComponent "$READS_A" 'out: "/a"'

refuses_files 'a policy that is not known' 1 'cyber: s.sched: UnknownPolicy "fair"' \
  "echo 'scheduler_conf { policy: \"fair\" }' >s.sched"
refuses_files 'a scheduler file without groups' 1 'cyber: s.sched: NoGroup' ': >s.sched'
refuses_files 'too many processors' 5 'cyber: s.sched: limit TooManyProcessors passed: 65' \
  "echo 'scheduler_conf { classic_conf { groups { name: \"g\" processor_num: 65 } } }' >s.sched"
refuses_files 'a file that is too long' 5 'cyber: s.sched: limit ConfigTooLarge passed: 16777217' 'truncate -s 16777217 s.sched'
refuses_files 'a DAG that is not there' 3 'cyber: d.dag: the store failed' 'rm d.dag'
refuses_files 'a component file that is not there' 3 'cyber: p.conf: the store failed' 'rm p.conf'
refuses_files 'a scheduler file that is not there' 3 'cyber: s.sched: the store failed' ''
