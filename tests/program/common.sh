# shellcheck shell=bash disable=SC2154
# What the parts of tests/program.sh share: they make files, run the program, and compare what came of it. `program`, `top` and the
# folder `work` are given by tests/program.sh.

USAGE='cyber: the words are not of a known form'
OUTPUT='cyber: the output failed'

# Makes what `pass` must write for the record in `files`, in the folder `want`.
wanted() { # the two channels
  mkdir -p want
  python3 "$top/tests/replay.py" want/rec want/trace want/line --record files/in.rec --pass "$@"
}

# Makes what `pass` must write for a record of `examples/`, in the folder `want`, and puts the record into `files`.
given() { # the name of the record
  mkdir -p files
  cp "$top/examples/pass/$1" files/in.rec
  wanted /in /out
}

# Looks that the record and the trace were written whole.
both_whole() {
  holds files/out.rec want/rec
  holds files/trace want/trace
}

# Looks that `verify` finds the files of a play to be those of a lawful run, and prints the numbers that the play printed.
is_lawful() { # the folder in which the play ran, the record and the trace as they are named there, and the words of the play but for these
  local line expected
  expected=$(sed 's/^done: /lawful: /' out)
  line=$(cd "$1" && "$program" verify --out "$2" --trace "$3" "${@:4}" 2>&1)
  [ "$line" = "$expected" ]
  count $? "$name: verify says '$(head -c 200 <<<"$line")', not '$expected'"
}

refuses_the_words() { # the words
  begin "refuses the words '$(printf '%q ' "$@")'"
  run "$@"
  ends 2 '' "$USAGE"
  [ -z "$(ls files)" ]
  count $? "$name: a file was made"
}

# A command that writes the record of these messages, in Python, and the types and descriptions of channels.
write_record() { # the messages, and the forms
  echo "PYTHONPATH='$top/tools' python3 -c 'from record import *; import sys; sys.stdout.buffer.write(record($1, $2))' >in.rec"
}

# Looks at the lines of a trace.
traces() { # the file, and the lines
  printf '%s\n' "$2" | cmp -s - "$1"
  count $? "$name: $1 is $(head -c 600 "$1")"
}

# The component file of a component that is asked outside.
ANSWERED='out: "/o" out_type: "t" answers: "p.rec"'

# Writes a component that is asked outside, the messages on /a that trigger its calls, and the record of its answers.
answered_by() { # its component file, the messages of its answers, and the types and descriptions of their channels
  one_component ExternalComponent "$READS_A" "$1"
  (cd files && eval "$(write_record '[(b"/a", 10 * k, b"\x08\x02") for k in (1, 2, 3, 4)]' '{}')" && mv in.rec all.rec \
    && eval "$(write_record "$2" "$3")" && mv in.rec p.rec && mv all.rec in.rec)
}

# Compares what standard output got with a text of several lines.
prints() { # the text
  [ "$status" -eq 0 ]
  count $? "$name: status $status, not 0"
  printf '%s\n' "$1" | cmp -s - out
  count $? "$name: standard output got '$(head -c 2000 out)', not '$1'"
  [ ! -s err ]
  count $? "$name: standard error got '$(head -c 200 err)'"
}

# Writes a DAG of one component `p` of a class and a component file for it.
one_component() { # the class, the fields behind its name, and the component file
  mkdir -p files
  printf 'module_config { module_library: "x" components { class_name: "%s" config { name: "p" %s } } }\n' "$1" "$2" \
    >files/d.dag
  printf '%s\n' "$3" >files/p.conf
}

# Writes a DAG of components that read the same channels, and a component file for each.
side_by_side() { # their class, how many, and the channels
  local class=$1 count=$2 readers='' channel k
  shift 2
  for channel in "$@"; do
    readers+=" readers { channel: \"$channel\" }"
  done
  for ((k = 0; k < count; k++)); do
    echo "out: \"/o$k\"" >"files/p$k.conf"
    echo "components { class_name: \"$class\" config { name: \"p$k\" config_file_path: \"p$k.conf\"$readers } }"
  done >components
  echo "module_config { $(cat components) }" >files/d.dag
}

# What components read, a command that writes a scheduler file, one that makes a cycle, and the words of a drive.
READS_A='config_file_path: "p.conf" readers { channel: "/a" }'
READS_IN='config_file_path: "p.conf" readers { channel: "/in" }'
A_SCHED='echo "scheduler_conf { classic_conf { groups { name: \"g\" } } }" >s.sched'
A_CYCLE="echo 'out: \"/in\"' >p.conf"
drive=(--dag examples/drive/drive.dag --record examples/drive/drive.rec)

refuses_files() { # what is wrong, the status, the line, and a command that writes the files
  begin "refuses $1"
  one_component PassComponent "$READS_A" 'out: "/o"'
  (cd files && eval "$4")
  run check --dag d.dag --sched s.sched
  ends "$2" '' "$3"
}

refuses_a_dag() { # what is wrong, the line behind the file's name, the class, the fields and the component file
  begin "refuses $1"
  one_component "$3" "$4" "$5"
  run check --dag d.dag
  ends 1 '' "cyber: $2"
}

tells_no_record() { # what is wrong, the status, the line behind the record's name, and a command that does it
  begin "tells nothing of $1"
  given two.rec
  (cd files && eval "$4")
  run info in.rec
  ends "$2" '' "cyber: in.rec: $3"
}

refuses_a_replay() { # what is wrong, the status, the line behind `cyber: `, and a command that changes the files
  begin "refuses to play $1"
  one_component PassComponent "$READS_IN" 'out: "/o"'
  cp "$top/examples/pass/two.rec" files/in.rec
  (cd files && eval "$4")
  run play --serial --dag d.dag --record in.rec --out out.rec --trace trace --sched=s.sched
  ends "$2" '' "cyber: $3"
  lacks files/out.rec
  lacks files/trace
}

# Plays records of a drive or others, and compares both files and the line with what a Python script makes of the same files.
plays_as_described() { # the words, but those for the files that are written
  begin "plays as the rules say: $*"
  local here=$PWD words=("$@")
  (cd "$top" && python3 tests/replay.py "$here/rec" "$here/trace" "$here/line" "$@")
  (cd "$top" && exec "$program" play --serial --out "$here/out.rec" --trace "$here/out.trace" "$@") >out 2>err
  status=$?
  ends 0 "$(cat line)" ''
  # `verify` knows no scheduler.
  [ "${5:-}" != --sched ] || words=("${@:1:4}" "${@:7}")
  is_lawful "$top" "$here/out.rec" "$here/out.trace" "${words[@]}"
  holds out.rec rec
  holds out.trace trace
}

# Runs a script of its own over the program, and tells what it found amiss.
stands() { # what it shows, the script, and its words behind the program
  begin "$1"
  "$top/tests/$2" "$program" "${@:3}" >report 2>&1
  count $? "$name: $(cat report)"
  grep '^left out' report
  skipped=$((skipped + $(grep -c '^left out' report)))
}

# Whether a play of the drive ended well, with the calls that its trace has: any lawful run may come of threads, so the files are looked at
# by `info` and by the numbers of the line.
has_played_the_drive() { # the record, the trace, the stop in one word where there is one
  grep -Eqx 'done: played 3205, shadowed 0, calls [1-9][0-9]*, written [0-9]+' out &&
    "$program" info "$1" >told && grep -q ' complete yes ' told && ! grep -q '^differs' told &&
    grep -q "messages $(sed 's/.* written //' out)$" told &&
    [ "$(grep -c '^call ' "$2")" = "$(sed 's/.* calls \([0-9]*\),.*/\1/' out)" ] &&
    verifies_the_drive "$(readlink -f "$1")" "$(readlink -f "$2")" "${@:3}"
}

# Whether `verify` finds the files of a play of the drive to be those of a lawful run with the numbers of its line.
verifies_the_drive() { # the record, the trace, and the stop where there is one
  (cd "$top" && exec "$program" verify "${drive[@]}" --out "$1" --trace "$2" "${@:3}") >verified 2>&1
  cmp -s verified <(sed 's/^done: /lawful: /' out)
}

# The words that name the files of `of_a_pass`.
PASS_FILES=(--dag d.dag --record in.rec --out out.rec --trace trace)

# Makes the files of the first play of `pass`, with a DAG and a component file that say the same.
of_a_pass() {
  given one.rec
  one_component PassComponent "$READS_IN" 'out: "/out"'
  sed -i 's/name: "p"/name: "pass"/' files/d.dag
  run pass in.rec out.rec trace /in /out
  ends 0 "$(cat want/line)" ''
  both_whole
}

# The names and sizes of all that is there, and the sum of each file but for a huge one.
sums() {
  (cd files && find . -printf '%p %s\n' | sort && find . -type f -size -100M -print0 | sort -z | xargs -0 sha256sum)
}

# Verifies, and looks at the status, at both streams, and that no file was made or changed.
verifies() { # the status, the line on standard output and that on standard error, and the words
  local status_of=$1 line=$2 fault=$3
  shift 3
  sums >before
  run verify "$@"
  ends "$status_of" "$line" "$fault"
  sums | cmp -s - before
  count $? "$name: a file was made or changed"
}
