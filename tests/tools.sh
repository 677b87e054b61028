#!/usr/bin/env bash
# Tests what stands around the program: the gate itself, front/, tools/, release/ and batch/. Usage: tests/tools.sh [--install] [SECTION...],
# by default all of front, gate, timeline, pictures, messages, external, why_not, report, release and batch.
# What a section needs beside Python's standard library is taken from the machine. With --install it is installed else: by apt-get where
# root asks for it on a Debian, or by pip into a virtual environment in $TOOLS_ENVIRONMENT (by default in the user's cache). Where it is
# not to be had the section is skipped, which is said. Without --install nothing is installed.
# PROGRAM is the proved program, by default the one that the gate left; without one, a section that needs it is skipped.
set -uo pipefail
top=$(cd "$(dirname "$0")/.." && pwd)
program=$(readlink -m "${PROGRAM:-$top/crates/cyber/out/cyber}")
environment=${TOOLS_ENVIRONMENT:-${XDG_CACHE_HOME:-${HOME:-/tmp}/.cache}/zektrob-tools}
work=$(mktemp -d)
trap 'rm -rf "$work"' EXIT
passed=0
failed=0
skipped=0
install=no
patience=60 # seconds

# Counts one comparison, and tells of one that failed.
count() { # whether it is well: 0, and what was compared
  if [ "$1" -eq 0 ]; then
    passed=$((passed + 1))
  else
    failed=$((failed + 1))
    echo "FAILED: $2"
  fi
}

# Says that a section is left out.
skip() { # its name, and what is missing
  skipped=$((skipped + 1))
  echo "skipped: $1: $2"
}

# Runs a command that uses the network. All such commands together are not waited for longer than `patience` says.
patiently() { # the command
  local begun=$SECONDS status=0
  [ "$patience" -gt 0 ] || return 1
  timeout "$patience" "$@" || status=$?
  patience=$((patience - SECONDS + begun))
  return "$status"
}

# Installs packages of Debian: they are downloaded first, and then nothing cuts their installation off.
install_packages() { # their names
  local get=(apt-get -qq -y -o Acquire::Retries=0 -o Acquire::http::Timeout=10 -o DPkg::Lock::Timeout=20 --no-install-recommends)
  [ "$install" = yes ] && [ "$(id -u)" -eq 0 ] && command -v apt-get >/dev/null || return 1
  {
    patiently "${get[@]}" --download-only install "$@" ||
      { patiently "${get[@]}" update && patiently "${get[@]}" --download-only install "$@"; }
  } && DEBIAN_FRONTEND=noninteractive "${get[@]}" --no-download install "$@"
} </dev/null >/dev/null 2>&1

# Installs packages of pip into the virtual environment.
install_modules() { # their names
  [ "$install" = yes ] || return 1
  [ -x "$environment/bin/python" ] || python3 -m venv "$environment" || return 1
  patiently "$environment/bin/pip" install --quiet --retries 0 --timeout 20 "$@"
} </dev/null >/dev/null 2>&1

# Puts the name of a Python that has a module into `python`.
has_module() { # the module
  for python in python3 /usr/bin/python3 "$environment/bin/python"; do
    "$python" -c "import $1" 2>/dev/null && return
  done
  return 1
}

# Finds a Python that has a module, or installs the module.
find_python() { # the module, the package of Debian and that of pip which have it
  has_module "$1" || { install_packages "$2" && has_module "$1"; } || { install_modules "$3" && has_module "$1"; }
}

# Runs a command in the test's folder, and compares its status.
try() { # the status, and the command
  local want=$1
  shift
  "$@" >out 2>err
  status=$?
  [ "$status" -eq "$want" ]
  count $? "$name: status $status, not $want, of '$*': $(head -c 300 err)"
}

# Looks that a file has a line that fits.
says() { # the file, and the pattern
  grep -Eqx -- "$2" "$1"
  count $? "$name: no line '$2' in $1: $(head -c 300 "$1")"
}

# Begins a test in an empty folder.
begin() { # what it shows
  name=$1
  cd "$(mktemp -d -p "$work")" || exit 1
}

# Makes the record and the trace of a drive in the test's folder, as the rules say, and what `check` prints for it.
replay_drive() {
  (cd "$top" && python3 tests/replay.py "$OLDPWD/out.rec" "$OLDPWD/out.trace" "$OLDPWD/line" \
    --dag examples/drive/drive.dag --sched examples/drive/drive.sched --record examples/drive/drive.rec)
  sed -n '/^    component "smooth"/,/^    ok$/s/^    //p' "$top/examples/README.md" >drive.check
}

# Makes a part of a gate that prints some lines and ends with a status.
stub() { # its file, the status, and the lines
  printf '%s\n' '#!/bin/sh' 'cat <<T' "${@:3}" T "exit $2" >"$1"
  chmod +x "$1"
}

gate() {
  begin 'the gate runs all parts, and sums what they count'
  mkdir -p .ci tests release bin
  cp "$top/.ci/run" .ci/
  stub bin/rt 0 'rt: ok' '7 passed, 0 failed'
  stub tests/units.sh 0 'files: 2 passed, 0 failed' 'runs: 3 passed, 0 failed' '5 passed, 0 failed'
  stub tests/program.sh 0 '20 passed, 0 failed, 4 skipped'
  stub tests/tools.sh 0 '30 passed, 0 failed'
  stub release/gate.sh 0 'commit 1, program 2'
  touch tests/refusals.py tests/promises.py
  PATH=$PWD/bin:$PATH try 0 .ci/run
  [ "$(tail -n 1 out)" = 'gate: 65 passed, 0 failed, 4 skipped' ]
  count $? "$name: the last line is '$(tail -n 1 out)'"
  begin 'a part of the gate that fails leaves out none behind it'
  cp -r "$OLDPWD/." .
  stub bin/rt 1 'rt: FAILED: x' '6 passed, 1 failed'
  stub tests/units.sh 1 'units: no tests'
  stub tests/program.sh 1 '20 passed, 0 failed'
  stub tests/tools.sh 0 '28 passed, 2 failed'
  echo 'raise SystemExit(1)' >tests/promises.py
  PATH=$PWD/bin:$PATH try 1 .ci/run
  printf 'failed: %s: status %s\n' 'rt ci' 1 tests/units.sh 1 tests/program.sh 1 \
    'tests/tools.sh --install front gate timeline messages external why_not release' 0 'python3 tests/promises.py' 1 >want
  echo 'gate: 56 passed, 6 failed' >>want
  tail -n 6 out | cmp -s - want
  count $? "$name: it ends with $(tail -n 6 out)"
  tries_one_part
  finds_edits
}

tries_one_part() {
  begin 'a part of the tests is named, and one that there is not is refused'
  fails_in_one_line 2 "tests/program.sh: no part 'plays': pass words .*" "$top/tests/program.sh" /bin/true plays
  fails_in_one_line 2 "tests/units.sh: no group 'file': .*" "$top/tests/units.sh" file
  fails_in_one_line 2 "tests/units.sh: no test 'reads' in files" "$top/tests/units.sh" files reads
  fails_in_one_line 2 "tests/units.sh: no test 'places_each_fault' in files, store.rs" "$top/tests/units.sh" files store::places_each_fault
  # In place of the toolchain stands what lists the tests of a group.
  mkdir bin
  printf '%s\n' '#!/bin/sh' 'grep -rhF -A 1 "#[test]" src | sed -n "s/^ *fn \([a-z0-9_]*\).*/test \1 ... ok/p"' >bin/rt
  chmod +x bin/rt
  PATH=$PWD/bin:$PATH try 0 "$top/tests/units.sh" files wire::reading::places_each_fault
  says out '1 passed, 0 failed'
  PATH=$PWD/bin:$PATH try 0 "$top/tests/units.sh" texts events
  says out "$(grep -rF '#[test]' "$top/tests/units/texts" "$top/tests/units/events" | wc -l) passed, 0 failed"
  try 1 "$top/tests/program.sh" /bin/false check
  says out '[0-9]+ passed, [1-9][0-9]* failed'
}

# A crate with two edits, one of which can't be applied.
finds_edits() {
  begin 'an edit that can not be applied any more is found'
  mkdir -p crates/c/src crates/c/must-fail tests/edits/c
  cp "$top/tests/edits_apply.py" "$top/tests/edits.sh" tests/
  printf 'let a = 1;\nlet b = 2;\nlet b = 2;\n' >crates/c/src/x.rt
  printf 'file: src/x.rt\nold: a = 1;\nnew: a = 2;\nold: a = 2;\nnew: a = 3;\n' >crates/c/must-fail/well.edit
  try 0 python3 tests/edits_apply.py
  [ ! -s out ]
  count $? "$name: $(cat out)"
  printf 'file: src/x.rt\nold: b = 2;\nnew: b = 3;\n' >tests/edits/c/twice.edit
  printf 'file: src/x.rt\nold: c = 2;\nnew: c = 3;\n' >tests/edits/c/gone.edit
  printf 'file: src/y.rt\nold: a = 1;\nnew: a = 3;\n' >tests/edits/c/no_file.edit
  printf 'file: src/x.rt\nold: a = 1;\nnew: a = 1;\n' >tests/edits/c/same.edit
  try 1 python3 tests/edits_apply.py
  says out "c: the edit twice can't be applied: src/x.rt has 2 times the text b = 2;"
  says out "c: the edit gone can't be applied: src/x.rt has 0 times the text c = 2;"
  says out "c: the edit no_file can't be applied: .*No such file or directory.*"
  says out "c: the edit same can't be applied: it changes nothing"
  [ "$(wc -l <out)" -eq 4 ]
  count $? "$name: $(cat out)"
  try 1 tests/edits.sh c
  says out "c: the edit gone can't be applied: .*"
}

DRIVE='/wheel/speed /smooth/sum /smooth/sum,/map/limit /margin /map/limit /limit/new /camera/frame /late/frame /late/frame /frames'

timeline() {
  local line="$top/tools/timeline.py" check="$top/tests/tools/check_timeline.py"
  begin 'a timeline has the calls, tuples and outputs of a drive'
  replay_drive
  try 0 python3 "$line" out.trace --record out.rec --wiring drive.check -o run.json
  # shellcheck disable=SC2086
  try 0 python3 "$check" run.json out.trace $DRIVE
  try 0 python3 "$line" out.trace --record out.rec --wiring drive.check -o run.json.gz
  gzip -dc run.json.gz | cmp -s - run.json
  count $? "$name: the compressed timeline is another one"
  begin 'the channels of four components are deduced, and skipped tuples are counted'
  python3 "$top/bench/made.py" 300 made
  python3 "$top/tests/replay.py" out.rec out.trace line --record made.record --dag made.dag
  try 0 python3 "$line" out.trace --record out.rec -o run.json
  try 0 python3 "$check" run.json out.trace /a,/b /sum /sum /band /band /win /a /late
  says run.json '\{"ph":"C","name":"skipped late","pid":1,"ts":[0-9.]+,"args":\{"tuples":149\}\},'
  begin 'a trace of version 2 has the calls of components that go on at the newest and at the oldest message'
  (cd "$top" && python3 tests/replay.py "$OLDPWD/out.rec" "$OLDPWD/out.trace" "$OLDPWD/line" \
    --dag examples/burst/burst.dag --record examples/burst/burst.rec)
  try 0 python3 "$line" out.trace --record out.rec -o run.json
  try 0 python3 "$check" run.json out.trace /speed /control /speed /total
  says run.json '\{"ph":"C","name":"skipped control","pid":1,"ts":[0-9.]+,"args":\{"tuples":5\}\},'
  says run.json '\{"ph":"C","name":"skipped total","pid":1,"ts":[0-9.]+,"args":\{"tuples":3\}\},'
  begin 'a trace alone has its calls'
  replay_drive
  try 0 python3 "$line" out.trace -o run.json
  try 0 python3 "$check" run.json out.trace
  begin 'channels that can be told apart by nothing are named'
  replay_drive
  try 0 python3 "$line" out.trace --record out.rec -o run.json
  says err 'timeline: without --dag calls may be drawn at wrong times, since .*: .*of margin, frames, and some flows are left out'
  says run.json '.*"note": "without --dag calls may be drawn at wrong times, .*'
  begin 'a timeline of forty thousand calls takes less than 100 MB'
  python3 "$top/tests/tools/long_run.py" 40000 long
  try 0 python3 "$top/tests/tools/measure.py" usage python3 "$line" long.trace --record long.rec -o long.json
  [ "$(sed -n 's/^memory //p' usage)" -lt 100000000 ]
  count $? "$name: $(cat usage)"
  try 0 python3 "$check" long.json long.trace /in /out
  asks_the_program "$line"
  decodes_in_timelines "$line"
  refuses_traces "$line"
}

# The program says what the components read and write. Where nobody does, calls may be drawn at wrong times, which is said.
asks_the_program() { # the tool
  begin 'a timeline takes a DAG file, and asks the program what it says'
  replay_drive
  printf '%s\n' '#!/bin/sh' 'echo "$@" >>asked' 'cat drive.check' >program
  chmod +x program
  try 0 python3 "$1" out.trace --record out.rec --wiring drive.check -o wired.json
  try 0 python3 "$1" out.trace --record out.rec --dag some.dag --program ./program -o run.json
  [ ! -s err ] && [ "$(cat asked)" = 'check --dag some.dag' ]
  count $? "$name: the program was asked for '$(cat asked)': $(cat err)"
  cmp -s run.json wired.json
  count $? "$name: the timeline is another one than with what check prints"
  try 0 python3 "$1" out.trace --dag some.dag --program ./program -o run.json
  says err 'timeline: without --record calls may be drawn at wrong times: .*'
  try 0 python3 "$1" out.trace -o run.json
  says err 'timeline: without --record and --dag calls may be drawn at wrong times: .*'
  printf '%s\n' '#!/bin/sh' 'echo "cyber: some.dag: NoComponents" >&2' 'exit 1' >program
  fails_in_one_line 1 'timeline: `./program check --dag some.dag` ended with status 1: cyber: some.dag: NoComponents' \
    python3 "$1" out.trace --record out.rec --dag some.dag --program ./program -o run.json
  fails_in_one_line 1 'timeline: ./none: No such file or directory' \
    python3 "$1" out.trace --record out.rec --dag some.dag --program ./none -o run.json
  try 2 python3 "$1" out.trace --dag some.dag --wiring drive.check -o run.json
  if [ -x "$program" ]; then
    try 0 env -C "$top" python3 "$1" "$PWD/out.trace" --record "$PWD/out.rec" --dag examples/drive/drive.dag --program "$program" -o "$PWD/run.json"
    cmp -s run.json wired.json
    count $? "$name: by the program it is another timeline"
  fi
}

decodes_in_timelines() { # the tool
  begin 'a timeline has what messages hold, where that is asked for'
  python3 "$top/tests/replay.py" out.rec out.trace line --record "$top/examples/pass/one.rec" --pass /in /out
  try 0 python3 "$1" out.trace --record out.rec --decode -o run.json
  [ "$(grep -c '"number":1,"time":"100","message":"7"' run.json)" = 2 ]
  count $? "$name: not two messages with 7"
  try 2 python3 "$1" out.trace --decode -o run.json
  try 2 python3 "$1" out.trace --record out.rec --types types -o run.json
  find_python google.protobuf python3-protobuf protobuf || return 0
  "$python" "$top/tests/tools/described_record.py" a.rec 3.25 types
  python3 "$top/tests/replay.py" out.rec out.trace line --record a.rec --pass /chassis /copy
  try 0 "$python" "$1" out.trace --record out.rec --decode --types types -o run.json
  [ "$(grep -cF '"number":3,"time":"30","message":"{\"speed\": 3.25}"' run.json)" = 2 ]
  count $? "$name: a message that was passed on isn't decoded"
  says err 'timeline: out.rec: /bad: no descriptor of demo.Bad: .*'
}

refuses_traces() { # the tool
  begin 'what is no trace, or another record, is refused in one line'
  replay_drive
  echo x >text
  fails_in_one_line 1 'timeline: text: line 1: not a trace' python3 "$1" text -o run.json
  fails_in_one_line 1 'timeline: .*drive.rec: not the record of this trace' \
    python3 "$1" out.trace --record "$top/examples/drive/drive.rec" -o run.json
  fails_in_one_line 1 'timeline: text: not a record' python3 "$1" out.trace --record text -o run.json
  sed '1s/1/2/' out.trace >bad.trace
  fails_in_one_line 1 'timeline: bad.trace: line 3: a component of no known form' python3 "$1" bad.trace -o run.json
  sed '5s/call/cull/' out.trace >bad.trace
  fails_in_one_line 1 'timeline: bad.trace: line 5: .*' python3 "$1" bad.trace -o run.json
  head -n 1000 out.trace >bad.trace
  fails_in_one_line 1 'timeline: bad.trace: line 1000: a component without an end' python3 "$1" bad.trace -o run.json
  head -n -5 out.trace >bad.trace
  fails_in_one_line 1 'timeline: out.rec: not the record of this trace' python3 "$1" bad.trace --record out.rec -o run.json
  sed '5s/1@/2@/' out.trace >bad.trace
  fails_in_one_line 1 'timeline: bad.trace: line 1005: .*' python3 "$1" bad.trace -o run.json
  sed '1004s/1000 1000@/1001 1000@/' out.trace >bad.trace
  fails_in_one_line 1 "timeline: bad.trace: component smooth: a call on a message that /wheel/speed doesn't have" \
    python3 "$1" bad.trace --record out.rec --wiring drive.check -o run.json
  fails_in_one_line 1 'timeline: text: no component; .*' python3 "$1" out.trace --record out.rec --wiring text -o run.json
  fails_in_one_line 1 'timeline: none: No such file or directory' python3 "$1" none -o run.json
  try 0 python3 "$1" --help
  python3 "$top/bench/made.py" 20 made
  python3 "$top/tests/replay.py" out.rec out.trace line --record made.record --dag made.dag
  try 0 python3 "$top/tests/tools/damaged.py" 30 out.trace python3 "$1" FILE --record out.rec -o run.json
  try 0 python3 "$top/tests/tools/damaged.py" 30 out.rec python3 "$1" out.trace --record FILE -o run.json
}

pictures() {
  begin 'a picture of a drive is the one of docs/pictures'
  if ! find_python matplotlib python3-matplotlib matplotlib; then
    skip pictures 'no matplotlib'
    return
  fi
  replay_drive
  try 0 "$python" "$top/tools/timeline.py" out.trace --record out.rec --wiring drive.check --end 3 -o drive.svg
  # Other versions of matplotlib put the same marks elsewhere by a hair, so only what the picture says is compared.
  diff <(grep -o '<text[^>]*>[^<]*' drive.svg | sed 's/.*>//') <(grep -o '<text[^>]*>[^<]*' "$top/docs/pictures/drive.svg" | sed 's/.*>//') >texts
  count $? "$name: the texts differ: $(head -c 300 texts)"
  [ "$(stat -c %s "$top/docs/pictures/drive.svg")" -lt 300000 ]
  count $? "$name: docs/pictures/drive.svg is too large"
  ! grep -q 'wrong times' drive.svg
  count $? "$name: it says that calls may be at wrong times"
  try 0 "$python" "$top/tools/timeline.py" out.trace --record out.rec -o run.svg
  grep -q '>without --dag calls may be drawn at wrong times<' run.svg
  count $? "$name: a picture without a DAG file doesn't say so"
  try 0 "$python" "$top/tools/timeline.py" out.trace -o run.png
  [ "$(head -c 4 run.png | tail -c 3)" = PNG ]
  count $? "$name: run.png is no picture"
}

messages() {
  local tool="$top/tools/messages.py"
  tells_faults "$tool"
  if ! find_python google.protobuf python3-protobuf protobuf; then
    skip 'messages that are described' 'no Protocol Buffers package'
    return
  fi
  begin 'messages are decoded by the descriptors of their channels'
  try 0 "$python" "$top/tests/tools/described_record.py" a.rec
  try 0 "$python" "$top/tests/tools/described_record.py" b.rec 4
  try 0 "$python" "$tool" a.rec
  printf '%s\n' '/chassis 1 10 {"header": {"frame": "map", "stamp": "18446744073709551615"}, "speed": 1.5, "wheels": [1, -2], "gear": "DRIVE"}' \
    '/chassis 2 20 {"header": {"frame": "größe"}}' '/chassis 3 30 {"speed": 3.25}' '/bad 1 40 0x78' '/odd 1 50 0x' '/whole 1 60 -7' \
    '/raw 1 70 0xff00' | cmp -s - out
  count $? "$name: $(cat out)"
  says err 'messages: a.rec: /bad: no descriptor of demo.Bad: .*'
  says err 'messages: a.rec: /odd: no descriptor of demo.Odd: .*'
  try 0 "$python" "$tool" a.rec --json --channel /whole
  says out '\{"channel": "/whole", "number": 1, "time": "60", "whole": "-7"\}'
  try 0 "$python" "$tool" a.rec --csv --channel /chassis
  says out 'channel,number,time,header.frame,header.stamp,speed,wheels,gear,undecoded bytes'
  says out '/chassis,1,10,map,18446744073709551615,1.5,"\[1, -2\]",DRIVE,'
  says out '/chassis,3,30,,,3.25,,,'
  try 0 "$python" "$tool" a.rec --csv
  says out '/raw,1,70,0xff00'
  decodes_what_is_passed_on "$tool"
  begin 'what is printed of random messages is what they were made of'
  try 0 "$python" "$top/tests/tools/check_messages.py" 50 1
  begin 'messages become what the package makes of them, and the same bytes again'
  try 0 "$python" "$top/tests/tools/check_json_form.py" 40 1
  begin 'records that are the same need no package, and others do'
  "$python" "$top/tests/tools/described_record.py" a.rec
  "$python" "$top/tests/tools/described_record.py" b.rec 4
  without_package 0 "$tool" --diff a.rec a.rec
  says out 'same: 7 messages on 5 channels'
  without_package 0 "$tool" --stats a.rec
  without_package 2 "$tool" --diff a.rec b.rec
  says err 'messages: .*google.*; described messages are decoded by the Protocol Buffers package .*'
  begin 'the messages of a drive are decoded'
  try 0 "$python" "$tool" "$top/examples/drive/drive.rec" --channel /wheel/speed
  says out '/wheel/speed 1 1700000000000079088 \{"value": "8045"\}'
  [ "$(wc -l <out)" -eq 1000 ]
  count $? "$name: $(wc -l <out) lines"
  compares_records "$tool"
  begin 'the value by a path and a kind is the one that the Protocol Buffers package reads'
  try 0 "$python" "$top/tests/tools/check_values.py" 20000 1
  if [ -x "$program" ]; then
    begin 'the program plays by these values'
    try 0 "$python" "$top/tests/tools/play_values.py" "$program" 20000 1
  else
    skip 'values by which the program plays' 'no program'
  fi
  lists_fields "$top/tools/fields.py"
}

# A line for each scalar field, which a component's file can have.
lists_fields() { # the tool
  begin 'each scalar field of a described message has a line that gives its value'
  "$python" "$top/tests/tools/described_record.py" a.rec 3.25 types
  try 0 "$python" "$1" a.rec /chassis
  printf '%s\n' '# /chassis: demo.Chassis' 'value { channel: "/chassis" path: [1, 2] kind: UINT64 }  # header.stamp' \
    'value { channel: "/chassis" path: [2] kind: FLOAT scale: 1000 }  # speed' \
    'value { channel: "/chassis" path: [3] kind: INT32 }  # wheels: only the last one counts' \
    'value { channel: "/chassis" path: [4] kind: ENUM }  # gear' | cmp -s - out
  count $? "$name: $(cat out)"
  try 0 "$python" "$top/tests/tools/check_fields.py" 5 1
  (cd "$top" && python3 tests/parted.py "$OLDPWD/whole.rec" "$OLDPWD/line" split "$OLDPWD/a.rec" --channels /whole)
  try 0 "$python" "$1" a.rec --scale 1
  says out 'value \{ channel: "/chassis" path: \[2\] kind: FLOAT \}  # speed'
  fails_in_one_line 2 'fields: a.rec: /bad: no descriptor of demo.Bad: .*' "$python" "$1" a.rec /bad
  fails_in_one_line 2 'fields: a.rec: no channel /none' "$python" "$1" a.rec /none
  fails_in_one_line 2 'fields: whole.rec: nothing describes the messages of a channel' "$python" "$1" whole.rec
  fails_in_one_line 2 'fields: types: not a record' "$python" "$1" types
  try 2 "$python" "$1" a.rec --scale 20
  without_package 2 "$1" a.rec
  says err 'fields: .*google.*; descriptions are read by the Protocol Buffers package .*'
}

# Runs a tool of tools/ where there is no Protocol Buffers package.
without_package() { # the status, and the words
  try "$1" python3 -c 'import runpy, sys
sys.modules["google"] = None
sys.argv[:] = sys.argv[1:]
sys.path.insert(0, sys.argv[0].rpartition("/")[0])
runpy.run_path(sys.argv[0], run_name="__main__")' "${@:2}"
}

# A record that a play writes has the type of what was passed on, and not its description. That of another channel is used, or a set.
decodes_what_is_passed_on() { # the tool
  begin 'what was passed on is decoded by the description of another channel, or by a set'
  "$python" "$top/tests/tools/described_record.py" a.rec 3.25 types
  python3 "$top/tests/replay.py" out.rec out.trace line --record a.rec --pass /chassis /copy
  try 0 "$python" "$1" out.rec --channel /copy
  says out '/copy 3 30 \{"speed": 3.25\}'
  (cd "$top" && python3 tests/parted.py "$OLDPWD/part.rec" "$OLDPWD/line" split "$OLDPWD/out.rec" --channels /copy)
  try 0 "$python" "$1" part.rec
  says out '/copy 3 30 0x[0-9a-f]+'
  try 0 "$python" "$1" part.rec --types types
  says out '/copy 3 30 \{"speed": 3.25\}'
  [ ! -s err ]
  count $? "$name: $(cat err)"
  try 0 "$python" "$1" a.rec --types types --channel /odd
  says err 'messages: a.rec: /odd: no descriptor of demo.Odd: .*'
  fails_in_one_line 2 'messages: line: no FileDescriptorSet: .*Not all data was converted' "$python" "$1" part.rec --types line
  fails_in_one_line 2 'messages: none: No such file or directory' "$python" "$1" part.rec --types none
}

compares_records() { # the tool
  begin 'two records are compared message by message'
  "$python" "$top/tests/tools/described_record.py" a.rec
  "$python" "$top/tests/tools/described_record.py" b.rec 4
  try 0 "$python" "$1" --diff a.rec a.rec
  says out 'same: 7 messages on 5 channels'
  try 1 "$python" "$1" --diff a.rec b.rec
  says out '/chassis 3 at 30: speed 3.25 and 4.0; 1 of 3 differ'
  says out 'differ: 1 of 7 messages, on 1 of 5 channels'
  [ "$(wc -l <out)" -eq 2 ]
  count $? "$name: more than two lines: $(cat out)"
  try 0 "$python" "$1" --diff a.rec b.rec --ignore speed
  says out 'same: 7 messages on 5 channels; 1 pass by --tolerance or --ignore'
  try 0 "$python" "$1" --diff a.rec b.rec --channel /whole
  replay_drive
  try 1 "$python" "$1" --diff out.rec "$top/examples/drive/drive.rec" --channel /margin
  says out '/margin 1: only in out.rec, which has 965 in place of 0; 965 of 965 differ'
}

# What needs no description needs no package, and faults are told in one line.
tells_faults() { # the tool
  begin 'messages without descriptions are printed, and faults are told in one line'
  try 0 python3 "$1" "$top/examples/pass/one.rec"
  says out '/in 1 100 7'
  try 0 python3 "$1" --diff "$top/examples/pass/two.rec" "$top/examples/pass/two.rec"
  says out 'same: 2 messages on 1 channels'
  try 1 python3 "$1" --diff "$top/examples/pass/one.rec" "$top/examples/pass/two.rec"
  says out '/in 2: only in .*/two.rec, which has 2 in place of 1; 1 of 2 differ'
  says out 'differ: 1 of 2 messages, on 1 of 1 channels'
  compares_numbers "$1"
  counts_messages "$1"
  fails_in_one_line 2 'messages: .*README.md: not a record' python3 "$1" "$top/README.md"
  fails_in_one_line 2 'messages: none: No such file or directory' python3 "$1" none
  fails_in_one_line 2 'messages: .*one.rec: no channel /other' python3 "$1" "$top/examples/pass/one.rec" --channel /other
  : >empty
  fails_in_one_line 2 'messages: empty: not a record' python3 "$1" empty
  head -c 2130 "$top/examples/pass/one.rec" >cut.rec
  fails_in_one_line 2 'messages: cut.rec: at [0-9]+: no whole section' python3 "$1" cut.rec
  try 0 python3 "$1" --help
  # Whatever is cut or changed, there is a status of its own and at most a line.
  try 0 python3 "$top/tests/tools/damaged.py" 30 "$top/examples/pass/two.rec" python3 "$1" FILE
}

# Numbers may be some way apart, and what is neither a number nor described is compared by bytes.
compares_numbers() { # the tool
  local each
  for each in 5 9; do
    PYTHONPATH="$top/tools" python3 -c 'from record import *; import sys; sys.stdout.buffer.write(record([(b"/n", 1, content_of(-4)),
      (b"/n", 2, content_of(int(sys.argv[1]))), (b"/x", 3, b"\xff" * 40 + sys.argv[1].encode())]))' "$each" >"$each.rec"
  done
  try 1 python3 "$1" --diff 5.rec 9.rec
  says out '/n 2 at 2: 5 and 9; 1 of 2 differ'
  says out '/x 1 at 3: byte 40 of 41 and 41: 0x35 and 0x39; 1 of 1 differ'
  says out 'differ: 2 of 3 messages, on 2 of 2 channels'
  try 1 python3 "$1" --diff 5.rec 9.rec --channel /n --tolerance 3.9
  try 0 python3 "$1" --diff 5.rec 9.rec --channel /n --tolerance 4
  says out 'same: 2 messages on 1 channels; 1 pass by --tolerance or --ignore'
  for each in '--tolerance -1' '--tolerance x' '--json' '--stats' '--csv'; do
    # shellcheck disable=SC2086
    try 2 python3 "$1" --diff 5.rec 9.rec $each
  done
  try 2 python3 "$1" 5.rec --tolerance 1
}

# The times of the drive are those that examples/README.md has.
counts_messages() { # the tool
  local first=2023-11-14T22:13:20.000079088Z last=2023-11-14T22:13:39.990094318Z
  try 0 python3 "$1" --stats "$top/examples/drive/drive.rec"
  says out " *5  2023-11-14T22:13:20.700000000Z  2023-11-14T22:13:36.700000000Z  16.000000000 +0.250 +20  /map/limit +drive.Limit"
  says out " *3205  $first  $last  19.990015230 +160.280 +[0-9]+  all"
  [ "$(wc -l <out)" -eq 6 ]
  count $? "$name: $(wc -l <out) lines"
  try 0 python3 "$1" --stats --json "$top/examples/drive/drive.rec" --channel /map/limit
  says out "\{\"channel\": \"/map/limit\", \"type\": \"drive.Limit\", \"messages\": 5, \"bytes\": 20, \"first\": \"2023-.*\", \"last\": \"2023-.*\", \
\"first_time\": \"1700000000700000000\", \"last_time\": \"1700000016700000000\", \"seconds\": 16.0, \"a_second\": 0.25\}"
  try 0 python3 "$1" --stats "$top/examples/pass/one.rec"
  says out ' *1  1970-01-01T00:00:00.000000100Z  1970-01-01T00:00:00.000000100Z  0.000000000 +2  /in'
  # A name may have any bytes, and a record no message.
  PYTHONPATH="$top/tools" python3 -c 'from record import *
open("none.rec", "wb").write(record([]))
open("odd.rec", "wb").write(record([("/a\n\u00e9".encode(), 1, b"x")]))'
  try 0 python3 "$1" --stats none.rec
  says out ' *0 +0 +all'
  try 0 python3 "$1" --stats odd.rec
  says out '.* 1  /a\\né'
  try 0 python3 "$1" odd.rec
  says out '/a\\né 1 1 0x78'
  try 1 python3 "$1" --diff none.rec odd.rec
  says out '/a\\né 1: only in odd.rec, .*'
}

# Looks that a command ends with a status, and prints one line, which fits, on standard error.
fails_in_one_line() { # the status, the pattern and the command
  try "$1" "${@:3}"
  says err "$2"
  [ "$(wc -l <err)" -eq 1 ]
  count $? "$name: more than one line: $(head -c 300 err)"
}

# Puts the libraries that a program asks for into a root, so that it can be run there.
copy_libraries() { # the program, and the root
  ldd "$1" | grep -o '/[^ ]*' | while read -r library; do
    install -D "$library" "$2$library"
  done
}

# Installs the package into an empty root, which has nothing but what dpkg needs, and says how its program is run there.
install_package() { # the package
  local file
  mkdir -p empty/var/lib/dpkg/info empty/var/lib/dpkg/updates
  touch empty/var/lib/dpkg/status
  if [ "$(id -u)" -eq 0 ] && chroot / true 2>/dev/null && ldd "$program" >/dev/null 2>&1; then
    # The libraries are the only thing that the package asks for, and they are copied.
    try 0 dpkg --root="$PWD/empty" --force-depends --force-script-chrootless --log=/dev/null -i "$1"
    try 0 dpkg --root="$PWD/empty" --verify zektrob
    [ ! -s out ]
    count $? "$name: files are not as packed: $(cat out)"
    # The front is a script: these three are on each Debian.
    for file in "$program" /bin/bash /usr/bin/env /usr/bin/readlink; do
      copy_libraries "$file" empty
      [ "$file" = "$program" ] || install -D "$file" "empty$file"
    done
    call=(/usr/sbin/chroot "$PWD/empty" /usr/bin/cyber)
  else
    try 0 dpkg-deb -x "$1" empty
    call=("$PWD/empty/usr/bin/cyber")
  fi
  cp -r empty/usr/share/doc/zektrob/examples empty/
}

# Calls the tool for the trace of a drive, or of a burst, that sed changes.
ask_why() { # the status, drive or burst, what sed does, and further words
  sed "$3" "$2.trace" >changed.trace
  try "$1" env -C "$top" python3 tools/why_not.py --dag "examples/$2/$2.dag" --record "examples/$2/$2.rec" \
    --out "$PWD/$2.rec" --trace "$PWD/changed.trace" "${@:4}"
}

# Looks that it says why that isn't lawful.
says_why() { # the pattern behind `line`, drive or burst, what sed does, and further words
  ask_why 1 "${@:2}"
  says out ".*/changed.trace: line $1"
}

# The program that plays components outside: the proved one where it knows their class, else one that plays by the tests' own model.
find_player() {
  mkdir -p known
  echo 'out: "/x"' >known/x.conf
  printf '%s\n' 'module_config { components { class_name: "ExternalComponent"' \
    'config { name: "x" config_file_path: "known/x.conf" readers { channel: "/in" } } } }' >known/x.dag
  player="$top/tests/tools/stand_in.py"
  if [ -x "$program" ] && "$program" check --dag known/x.dag >/dev/null 2>&1; then
    player=$program
  fi
  # The stand-in is run by the Python that has the package, as the tool is.
  printf '%s\n' '#!/bin/sh' "case '$player' in *.py) exec '$python' '$player' \"\$@\";; esac" "exec '$player' \"\$@\"" >player
  chmod +x player
  player=$PWD/player
}

# A command that answers nothing to each call.
SILENT='sed s/.*/{}/'

# Calls the tool for the tracks of the examples, whose answers are written into the test's folder.
play_tracks() { # the status, and further words
  [ -e examples ] || ln -s "$top/examples" examples
  try "$1" "$python" "$top/tools/external.py" --dag examples/tracks/tracks.dag --record examples/tracks/tracks.rec --out out.rec \
    --trace out.trace --program "$player" "${@:2}"
}

external() {
  if ! find_python google.protobuf python3-protobuf protobuf; then
    skip external 'no Protocol Buffers package'
    return
  fi
  prints_calls
  find_player
  plays_tracks
  plays_the_values
  asks_once
  keeps_answers
  refuses_answers
  refuses_components
  begin 'components outside that are copies of built-in classes play as these do'
  try 0 "$python" "$top/tests/tools/externals.py" "$player" 8 1
}

# The first record of the examples has 7 at time 100, whose content is the bytes 8 and 14.
prints_calls() {
  local calls="$top/tools/calls.py"
  begin 'the calls of a component are printed with the messages that they took'
  printf '%s\n' 'module_config { components { class_name: "PassComponent" config { name: "pass"' \
    'config_file_path: "pass.conf" readers { channel: "/in" } } } }' >pass.dag
  echo 'out: "/out"' >pass.conf
  cp "$top"/examples/pass/one.rec in.rec
  python3 "$top/tests/replay.py" out.rec out.trace line --record in.rec --dag pass.dag
  try 0 python3 "$calls" --dag pass.dag --record in.rec --out out.rec --trace out.trace --component pass
  says out '\{"call": 1, "time": "100", "messages": \[\{"channel": "/in", "number": 1, "time": "100", "content": "CA4=", "value": "7"\}\]\}'
  fails_in_one_line 1 'calls: pass.dag: no component piss; there are pass' \
    python3 "$calls" --dag pass.dag --record in.rec --out out.rec --trace out.trace --component piss
  fails_in_one_line 1 'calls: in.rec: fewer messages than .*' \
    python3 "$calls" --dag pass.dag --record in.rec --out in.rec --trace out.trace --component pass
  sed 's/call 1\/1 1/call 1\/1 2/' out.trace >bad.trace
  fails_in_one_line 1 "calls: bad.trace: a call on a message that /in doesn't have" \
    python3 "$calls" --dag pass.dag --record in.rec --out out.rec --trace bad.trace --component pass
  begin 'the messages of calls have the values by which they were played'
  printf '%s\n' 'module_config { components { class_name: "PassComponent" config { name: "pass" config_file_path: "pass.conf"' \
    'readers { channel: "/in" } } } components { class_name: "PassComponent" config { name: "again" config_file_path: "again.conf"' \
    'readers { channel: "/out" } readers { channel: "/in" } } } }' >pass.dag
  echo 'out: "/out"' >pass.conf
  echo 'out: "/again" value { channel: "/in" path: 2 kind: FLOAT scale: 10 }' >again.conf
  PYTHONPATH="$top/tools" python3 -c 'from record import *
open("in.rec", "wb").write(record([(b"/in", 5, bytes.fromhex("150000003f")), (b"/in", 6, content_of(3))]))'
  python3 "$top/tests/replay.py" out.rec out.trace line --record in.rec --dag pass.dag
  try 0 python3 "$calls" --dag pass.dag --record in.rec --out out.rec --trace out.trace --component pass
  says out '\{"call": 1, .*\[\{"channel": "/in", "number": 1, "time": "5", "content": "FQAAAD8=", "value": "5"\}\]\}'
  says out '\{"call": 2, .*\[\{"channel": "/in", "number": 2, "time": "6", "content": "CAY="\}\]\}'
  try 0 python3 "$calls" --dag pass.dag --record in.rec --out out.rec --trace out.trace --component again
  says out '\{"call": 1, .*\{"channel": "/out", "number": 1, .*"value": "5"\}, \{"channel": "/in", "number": 1, .*"value": "5"\}\]\}'
  says out '\{"call": 2, .*"content": "CAY="\}, \{.*"content": "CAY="\}\]\}'
  try 0 python3 "$top/tools/why_not.py" --dag pass.dag --record in.rec --out out.rec --trace out.trace
  sed 's/=5$/=4/' out.trace >bad.trace
  try 1 python3 "$top/tools/why_not.py" --dag pass.dag --record in.rec --out out.rec --trace bad.trace
  says out 'bad.trace: line 5: call 1 of "pass" has the output @5=4, and PassComponent puts out @5=5\. .*'
  begin 'the calls of the drive have the limit that came before, and what messages mean'
  replay_drive
  try 0 env -C "$top" "$python" tools/calls.py --dag examples/drive/drive.dag --record examples/drive/drive.rec --out "$PWD/out.rec" \
    --trace "$PWD/out.trace" --component margin
  [ "$(wc -l <out)" -eq 965 ]
  count $? "$name: $(wc -l <out) calls"
  says out '\{"call": 1, .*\{"channel": "/map/limit", "number": 1, "time": "1700000000700000000", .*"value": "13900", "message": \{"value": "13900"\}\}\]\}'
}

# A camera's 97 images come at a tenth of a second each, and the first comes before any scan of the radar: 96 calls of each component. The
# scan before the image at 8.6 s was at 8.563 s, when the car was at 62 - 5.5 * 8.563 m ahead and 1.5 m beside: 14.979 m, the first that is
# not above 15. So are all images from then on, up to the one at 9.9 s: 14. Written: 97 + 200 + 96 + 96 + 14.
plays_tracks() {
  local fuse="fuse=$python $top/tools/component.py examples/tracks/fuse.py" closest
  begin 'the record of the tracks is the one that its script makes'
  try 0 "$python" "$top/examples/tracks/make_tracks.py" tracks.rec
  cmp -s tracks.rec "$top/examples/tracks/tracks.rec"
  count $? "$name: it is another one"
  begin 'a component in Python and one in C++ are asked, and played'
  if ! command -v c++ >/dev/null; then
    skip 'the component in C++' 'no compiler'
    return
  fi
  c++ -O2 -Wall -Wextra -Werror -o closest "$top/examples/tracks/closest.cc"
  count $? "$name: closest.cc isn't compiled"
  closest="closest=$PWD/closest"
  play_tracks 0 --run "$closest" --run "$fuse"
  printf '%s\n' 'fuse: calls 96, answers 96' 'closest: calls 96, answers 96' 'done: played 297, shadowed 0, calls 288, written 503' \
    'lawful: played 297, shadowed 0, calls 288, written 503' | cmp -s - out
  count $? "$name: it says $(cat out)"
  "$python" "$top/tools/messages.py" out.rec --channel /near >near
  [ "$(wc -l <near)" -eq 14 ] && [ "$(head -n 1 near)" = '/near 1 1700000008600000000 14979' ]
  count $? "$name: near are $(cat near)"
  "$python" "$top/tools/messages.py" out.rec --channel /fusion/tracks >tracks
  says tracks '/fusion/tracks 1 1700000000100000000 \{"header": .*"tracks": \[\{"id": 1, "label": "walker", "distance": 21.157, .*'
  writes_answers_elsewhere
}

# The answers may stand in another folder. Tools look at such a run by the DAG file there.
writes_answers_elsewhere() {
  local files=(--dag own/answered.dag --record examples/tracks/tracks.rec --out other.rec)
  begin 'answers are written into another folder, and tools look at the run by the DAG file there'
  cp "$OLDPWD"/{closest,out.rec,out.trace} .
  ln -s "$top/examples" examples
  try 0 "$python" "$top/tools/external.py" --dag examples/tracks/tracks.dag "${files[@]:2}" --trace other.trace --answers own \
    --program "$player" --run closest=./closest --run "$fuse"
  cmp -s out.rec other.rec && cmp -s out.trace other.trace && [ ! -e fuse.rec ] && [ ! -e closest.rec ]
  count $? "$name: another record or trace, or answers in another place: $(ls)"
  try 0 "$python" "$top/tools/why_not.py" "${files[@]}" --trace other.trace
  sed '5s/@1700000000100000000$/@1700000000100000001/' other.trace >bad.trace
  try 1 "$python" "$top/tools/why_not.py" "${files[@]}" --trace bad.trace
  says out 'bad.trace: line 5: call 1 of "fuse" has the output @1700000000100000001, and ExternalComponent puts out @1700000000100000000\. .*'
  try 0 "$python" "$top/tools/timeline.py" other.trace --record other.rec --dag own/answered.dag --program "$player" --decode -o run.json
  try 0 python3 "$top/tests/tools/check_timeline.py" run.json other.trace /camera,/radar /fusion/tracks /fusion/tracks /fusion/closest \
    /fusion/closest /near
  grep -qF '"message":"{\"header\": {\"stamp\": \"1700000000100000000\"' run.json
  count $? "$name: an answer isn't decoded"
  cp examples/tracks/tracks.rec own/fuse.rec
  try 0 "$python" "$top/tools/external.py" --dag examples/tracks/tracks.dag "${files[@]:2}" --trace other.trace --answers own \
    --program "$player" --run closest=./closest --run "$fuse"
  says out 'fuse: calls 96, answers 96, as before'
  try 1 "$python" "$top/tools/external.py" --dag own/answered.dag "${files[@]:2}" --trace other.trace --answers own \
    --program "$player" --run closest=./closest
  says err 'external: component closest: its component file own/closest.conf would be written over own/closest.conf'
}

# The lines for its component files are those of tools/fields.py. Its page says what its play prints, and what is in its trace.
plays_the_values() {
  begin 'the record of values is the one that its script makes, and its component files have the lines of its fields'
  try 0 "$python" "$top/examples/values/make_values.py" values.rec
  cmp -s values.rec "$top/examples/values/values.rec"
  count $? "$name: it is another one"
  try 0 "$python" "$top/tools/fields.py" values.rec /apollo/canbus/chassis
  cmp -s out <(sed -n '/^    # .apollo/,/^$/s/^    //p' "$top/examples/values/README.md")
  count $? "$name: README.md has other lines than $(cat out)"
  try 0 "$python" "$top/tools/fields.py" values.rec
  [ "$(grep -hc '^value' "$top"/examples/values/*.conf | paste -sd+)" = 1+1+2 ] && ! grep -h '^value' "$top"/examples/values/*.conf |
    sed 's/  # \(speed_mps\|pose.position.z\|lost\)$//' | grep -Fvf <(sed 's/  #.*//' out)
  count $? "$name: a component file has another value"
  begin 'the values of the example are played as its page says'
  ln -s "$top/examples" examples
  try 0 "$player" play --serial --dag examples/values/values.dag --record examples/values/values.rec --out out.rec --trace out.trace
  sed -n '/^component "fast"/,/^end/p' out.trace | grep -m 3 '=' | cat out - >played
  cmp -s played <(sed -n '/^    done: /,/^$/s/^    //p' "$top/examples/values/README.md")
  count $? "$name: it prints $(cat played)"
  "$python" "$top/tools/messages.py" out.rec --channel /fast | head -n 1 >fast
  grep -Fxq "    $(cat fast)" "$top/examples/values/README.md"
  count $? "$name: the first fast one is $(cat fast)"
  try 0 "$player" check --dag examples/values/values.dag
  says out 'value "/apollo/localization/pose" path 2 1 3 kind DOUBLE scale 1000'
}

# What was asked before isn't asked again, and what has changed is.
asks_once() {
  begin 'what was asked before is not asked again, but where the component or its calls are others'
  cp "$top/examples/tracks/fuse.py" .
  printf '%s\n' 'import fuse' 'print("asked")' 'answer = fuse.answer' >told.py
  local fuse="fuse=$python $top/tools/component.py told.py"
  play_tracks 0 --run "closest=$SILENT" --run "$fuse"
  says err asked
  says out 'fuse: calls 96, answers 96'
  says out 'closest: calls 96, answers 0'
  play_tracks 0 --run "closest=$SILENT" --run "$fuse"
  says out 'fuse: calls 96, answers 96, as before'
  [ ! -s err ]
  count $? "$name: it was asked again: $(cat err)"
  sed 's,examples/tracks/near.conf,near.conf,' examples/tracks/tracks.dag >valued.dag
  { cat examples/tracks/near.conf && echo 'value { channel: "/radar" path: [2, 1] kind: DOUBLE }'; } >near.conf
  try 0 "$python" "$top/tools/external.py" --dag valued.dag --record examples/tracks/tracks.rec --out out.rec --trace out.trace \
    --program "$player" --run "closest=$SILENT" --run "$fuse"
  says out 'fuse: calls 96, answers 96'
  says out 'closest: calls 96, answers 0, as before'
  echo '# changed' >>told.py
  play_tracks 0 --run "$fuse"
  says err asked
  play_tracks 0 --run "$fuse" --drop /radar
  says err asked
  says out 'fuse: calls 0, answers 0'
}

# A component that was answered stays so, when another one fails; of what fails nothing is written.
keeps_answers() {
  local fuse="fuse=$python $top/tools/component.py examples/tracks/fuse.py"
  begin 'where a component fails, what the ones before it answered is kept, and nothing else is written'
  # shellcheck disable=SC2016
  play_tracks 137 --run "$fuse" --run "closest=sh -c 'kill -KILL \$\$'"
  says out 'fuse: calls 96, answers 96'
  says err 'external: component closest: call 1 of 96: no answer: the command was ended by signal 9'
  [ ! -e out.rec ] && [ ! -e out.trace ] && [ ! -e fuse.rec ] && [ ! -e closest.rec ]
  count $? "$name: there are $(ls)"
  play_tracks 0 --run "$fuse" --run "closest=$SILENT"
  says out 'fuse: calls 96, answers 96, as before'
  says out 'closest: calls 96, answers 0'
  begin 'a tool that is killed in the middle goes on where it was'
  ln -s "$top/examples" examples
  # The second component kills the tool that asks it.
  # shellcheck disable=SC2016
  TMPDIR=$PWD try 137 sh -c '"$@"; exit $?' - "$python" "$top/tools/external.py" --dag examples/tracks/tracks.dag \
    --record examples/tracks/tracks.rec --out out.rec --trace out.trace --program "$player" --run "$fuse" \
    --run "closest=sh -c 'kill -KILL \$PPID'"
  says out 'fuse: calls 96, answers 96'
  [ ! -e out.rec ] && [ ! -e fuse.rec ] && [ ! -e closest.rec ]
  count $? "$name: there are $(ls)"
  play_tracks 0 --run "$fuse" --run "closest=$SILENT"
  says out 'fuse: calls 96, answers 96, as before'
}

# Each row: what the fuser runs, and what is said.
refuses_answers() {
  local command said
  begin 'answers that are wrong are told by their call'
  yes '{}' | head -n 96 >all
  while IFS='|' read -r command said; do
    play_tracks 1 --run "closest=$SILENT" --run "fuse=$command"
    said="external: component fuse: $said"
    says err "$said"
  done <<'ROWS'
true|call 1 of 96: no answer: the command ended with status 0
head -n 7 all|call 8 of 96: no answer: the command ended with status 0
cat|call 1 of 96: an answer is \{\}, .*, and not \{"call": 1, .*
sed s/.*/{/|call 1 of 96: no JSON: \{
sed 's/.*call.: 5,.*/{"value": 1.5}/; t; s/.*/{}/'|call 5 of 96: 1.5 is no whole number
sed 's/.*/{"value": "9223372036854775808"}/'|call 1 of 96: 9223372036854775808 is no number of 64 bits with a sign
sed 's/.*/{"content": "CA"}/'|call 1 of 96: "CA" is not in base64
sed 's/.*/{"message": {"trucks": []}}/'|call 1 of 96: no tracks.Tracks: .*no field named "trucks".*
sed 's/.*/{}/; $a {}'|call 96 of 96: a further line behind its answer
sed 's/.*/{}/; $q 3'|call 96 of 96: behind its answer the command ended with status 3
./none|\./none: No such file or directory
ROWS
  [ ! -e fuse.rec ] && [ ! -e .external ]
  count $? "$name: something was written: $(ls -a)"
}

refuses_components() {
  begin 'components that can not be asked are told by their names, and no other file is written over'
  yes '{}' | head -n 96 >all
  play_tracks 1 --run near=true
  says err 'external: component near is a FilterComponent, and no ExternalComponent'
  play_tracks 1 --run fuze=true
  says err 'external: examples/tracks/tracks.dag: no component fuze; there are fuse, closest, near'
  play_tracks 2 --run fuse
  says err 'external.py: error: argument --run: fuse is not NAME=COMMAND'
  play_tracks 1 --run 'fuse=cat all'
  says err "external: component closest: its answers closest.rec aren't there: --run closest=COMMAND asks for them"
  cp examples/tracks/tracks.rec fuse.rec
  play_tracks 1 --run 'fuse=cat all'
  says err "external: fuse.rec: it has messages on /camera, and isn't replaced by answers on /fusion/tracks"
  cmp -s fuse.rec examples/tracks/tracks.rec
  count $? "$name: a recording was written over"
  rm fuse.rec
  try 1 "$python" "$top/tools/external.py" --dag examples/tracks/tracks.dag --record examples/tracks/tracks.rec --out ./fuse.rec \
    --trace out.trace --program "$player" --run 'fuse=cat all' --run "closest=$SILENT"
  says err 'external: component fuse: its answers fuse.rec would be written over ./fuse.rec'
  sed 's,"/radar",& } readers { channel: "/fusion/closest",' examples/tracks/tracks.dag >loop.dag
  try 1 "$python" "$top/tools/external.py" --dag loop.dag --record examples/tracks/tracks.rec --out out.rec --trace out.trace \
    --program "$player" --run 'fuse=cat all'
  says err "external: component fuse depends on its own output, so it can't be asked outside"
}

why_not() {
  local each run
  begin 'a lawful run is found to be one, and in each other trace the first thing that no lawful run has'
  for run in drive burst; do
    (cd "$top" && python3 tests/replay.py "$OLDPWD/$run.rec" "$OLDPWD/$run.trace" "$OLDPWD/line" \
      --dag "examples/$run/$run.dag" --record "examples/$run/$run.rec")
    ask_why 0 "$run" ''
    says out 'lawful: a lawful run has this trace and this record'
  done
  ask_why 0 burst '9,16s/DATA_WAIT/FINISHED/' --stop total@8
  says_why '1: version 2, where .* version 1\. .*' drive '1s/1/2/; s/^component .*/& overflow NEWEST/'
  says_why '2: played 3205 and shadowed 1, where 3205 messages are played and 0 shadowed\. .*' drive '2s/0$/1/'
  says_why '3: component "margin" .*, where "smooth" overflow NEWEST has to stand\. .*' drive '3s/smooth/margin/'
  says_why '3: this is no line of a trace, .*' drive '1s/1/2/'
  says_why '5: this is no line of a trace, .*' drive '5s/1/01/'
  says_why '2390: /imu/yaw 2 is played where the play list has /imu/yaw 1\. .*' drive '2390s/1/2/'
  says_why '7960: /imu/yaw 2000 of the play list isn.t played\. .*' drive '/^tape "\/imu\/yaw" 2000$/d'
  says_why '7: the output of call 3 of "smooth" has the number 4, and is output 3\. .*' drive '7s/3@/4@/'
  says_why '1004: the output of call 1000 of "smooth" doesn.t stand on the tape\. .*' drive '/^tape "\/smooth\/sum" 1000$/d'
  says_why '4: 1001 messages came to reader 0 of "smooth", and the tape has 1000 of /wheel/speed\. .*' drive '4s/0/00/'
  says_why '1987: call 4 of "late" has the tail 4, and the call before it 5\. .*' drive '1986s,3/3,3/5,'
  says_why '7: call 3 of "smooth" has the tail 5000, and what came to it makes 1000 tuples\. .*' drive '7s,3/3,3/5000,'
  says_why '7: call 3 of "smooth" takes tuple 3, where a fetch at 3 of 4 tuples finds 4\. .*' drive '7s,3/3,3/4,'
  says_why '7: call 3 of "smooth" has the messages 4, and tuple 3 is made of 3\. .*' drive '7s, 3 3@, 4 3@,'
  says_why '7: call 3 of "smooth" has the output @1700000000040037977=24204, and WindowComponent puts out @.*=24203\. .*' drive '7s/3$/4/'
  says_why '1005: the next fetch of "smooth" is at 1000, and not at 1001\. .*' drive '1005s/1001/1000/'
  says_why '1005: "smooth" is FINISHED, and neither its last call nor a stop ended it\. .*' drive '1005s/DATA_WAIT/FINISHED/'
  says_why '15: "total" is in DATA_WAIT, and a fetch at 8 of 8 tuples finds tuple 8\. .*' burst '15,16d; 14a end DATA_WAIT next 8
$d' --stop control@8
  says_why '2388: /smooth/sum 1, of call 1 of "smooth", stands before /wheel/speed 1 \(line 2389\), .*' drive '2388{h; d}; 2389G'
  says_why '22: /control 1, of call 1 of "control", was held back until 6, and /speed 6 \(line 23\) is played behind it at 6\. .*' \
    burst '22{h; d}; 23{H; d}; 24G'
  says_why '13: call 3 of "total" has a late message, as call 2 has: .* line 20\. .*' burst '' --stop total@3
  begin 'where a record differs is said too, and what can not be read'
  cp "$top"/examples/pass/one.rec in.rec
  python3 "$top/tests/replay.py" pass.rec pass.trace line --record in.rec --pass /in /out
  printf '%s\n' 'module_config { components { class_name: "PassComponent" config { name: "pass"' \
    "config_file_path: 'pass.conf' readers < channel: '/' 'in' > } } }" >pass.dag
  printf '%s\n' 'out: "/\157ut" # as "/out"' >pass.conf
  for each in '5 in the header' '2164 in message 1 of the tape, /in 1' '2181 in message 2 of the tape, /out 1' '2270 in the index.*'; do
    cp pass.rec changed.rec
    printf x | dd of=changed.rec bs=1 seek="${each%% *}" conv=notrunc status=none
    try 1 python3 "$top/tools/why_not.py" --dag pass.dag --record in.rec --out changed.rec --trace pass.trace
    says out "changed.rec: the trace is lawful, but the record differs from that of its tape at byte ${each%% *}, ${each#* }"
  done
  python3 "$top/tests/replay.py" longer.rec longer.trace line --record "$top/examples/pass/two.rec" --pass /in /out
  try 1 python3 "$top/tools/why_not.py" --dag pass.dag --record in.rec --out longer.rec --trace pass.trace
  says out 'longer.rec: the trace is lawful, but .* at byte [0-9]+, in the header; it has 4 messages, and the tape 2'
  try 1 python3 "$top/tools/why_not.py" --dag pass.dag --record "$top/examples/pass/two.rec" --out pass.rec --trace longer.trace
  says out 'pass.rec: the trace is lawful, but .*, in the header; the first message that differs is message 3 of the tape, /in 2'
  mv pass.conf kept.conf
  fails_in_one_line 2 'why_not: pass.conf: No such file or directory' \
    python3 "$top/tools/why_not.py" --dag pass.dag --record in.rec --out pass.rec --trace pass.trace
  mv kept.conf pass.conf
  try 2 python3 "$top/tools/why_not.py" --dag pass.dag --record in.rec --out pass.rec --trace pass.trace --stop pass
  says err 'why_not.py: error: argument --stop: pass is not NAME@N, .*'
  fails_in_one_line 2 'why_not: .*none.*' python3 "$top/tools/why_not.py" --dag pass.dag --record in.rec --out none --trace pass.trace
  fails_in_one_line 2 'why_not: line: not a record' python3 "$top/tools/why_not.py" --dag pass.dag --record line --out none --trace pass.trace
  fails_in_one_line 2 'why_not: line: not in the text form: .*' \
    python3 "$top/tools/why_not.py" --dag line --record in.rec --out pass.rec --trace pass.trace
  try 0 python3 "$top/tools/why_not.py" --help
}

# Makes the record and the trace of a run of examples, by their rules, and its page.
page_of() { # the name of the run, its DAG file and its record in examples, and further words of the tool
  (cd "$top" && python3 tests/replay.py "$OLDPWD/$1.rec" "$OLDPWD/$1.trace" "$OLDPWD/line" --dag "examples/$2" --record "examples/$3")
  try 0 env -C "$top" "$python" tools/report.py --dag "examples/$2" --record "examples/$3" --out "$PWD/$1.rec" --trace "$PWD/$1.trace" \
    "${@:4}" "$PWD/$1.html"
}

# A program that answers `verify` and `check` as it is told to.
answering() { # its file, the status and the line of `verify`, and the text of `check`
  printf '%s\n' '#!/bin/sh' "if [ \"\$1\" = check ]; then cat <<'T'; exit; fi" "$4" T \
    "if [ $2 = 0 ]; then echo '$3'; else echo '$3' >&2; fi" "exit $2" >"$1"
  chmod +x "$1"
}

# Looks that a page has a text somewhere, whatever is between its words.
shows() { # the page, and the text
  "$python" - "$@" <<'P'
import re, sys
from html.parser import HTMLParser
page = HTMLParser()
texts = []
page.handle_data = texts.append
page.feed(open(sys.argv[1], encoding="utf-8").read())
sys.exit(" ".join(sys.argv[2].split()) not in " ".join("".join(texts).split()))
P
  count $? "$name: $1 doesn't have '$2'"
}

report() {
  local check="$top/tests/tools/check_report.py" pages
  patience=300
  if ! find_python jinja2 python3-jinja2 jinja2; then
    skip report 'no Jinja2'
    return
  fi
  begin 'pages of a drive, of a burst and of timers have what their traces and records have'
  page_of drive drive/drive.dag drive/drive.rec --program "$PWD/none"
  try 0 python3 "$check" drive.html drive.trace drive.rec
  shows drive.html 'Not verified'
  page_of burst burst/burst.dag burst/burst.rec --program "$PWD/none"
  try 0 python3 "$check" burst.html burst.trace burst.rec
  shows burst.html '5 skipped, 1 time; at most 5 in a row.'
  shows burst.html 'Replay of burst.rec'
  page_of beat drive/heartbeat.dag drive/drive.rec --program "$PWD/none"
  try 0 python3 "$check" beat.html beat.trace beat.rec
  shows beat.html 'CountComponent, timer, each 1,000 ms'
  shows beat.html "its timer"
  pages=("drive=$PWD/drive.html" "burst=$PWD/burst.html")
  compares_runs
  shows_verdicts
  shows_names
  shows_some_of_many
  shows_fields
  shows_no_message
  refuses_runs
  shows_batches
  clicks_in_pages
}

compares_runs() {
  begin 'a page says what is different in a good run'
  page_of burst burst/burst.dag burst/burst.rec --program "$PWD/none"
  mkdir same good
  cp burst.rec same/out.rec
  cp burst.trace same/out.trace
  page_of burst burst/burst.dag burst/burst.rec --program "$PWD/none" --good "$PWD/same"
  shows burst.html 'Nothing differs: both runs have the same messages, the same calls and the same tape.'
  echo 'out: "/total"
delay: 5' >total.conf
  sed "s#examples/burst/total.conf#$PWD/total.conf#" "$top/examples/burst/burst.dag" >other.dag
  (cd "$top" && python3 tests/replay.py "$OLDPWD/good/out.rec" "$OLDPWD/good/out.trace" "$OLDPWD/line" --dag "$OLDPWD/other.dag" \
    --record examples/burst/burst.rec)
  page_of burst burst/burst.dag burst/burst.rec --program "$PWD/none" --good "$PWD/good"
  try 0 python3 "$check" burst.html burst.trace burst.rec
  shows burst.html 'Messages of 1 channel and calls of 1 component differ.'
  shows burst.html 'First difference of each channel'
  pages+=("good=$PWD/burst.html")
  tac good/out.rec >good/bad
  mv good/bad good/out.rec
  fails_in_one_line 1 'report: .*' env -C "$top" "$python" tools/report.py --dag examples/burst/burst.dag --record examples/burst/burst.rec \
    --out "$PWD/burst.rec" --trace "$PWD/burst.trace" --good "$PWD/good" "$PWD/bad.html"
  [ ! -e bad.html ]
  count $? "$name: there is a page"
}

shows_verdicts() {
  local wiring='component "control" class TheirOwn library "x.so" reads "/speed" queue 3 writes "/control"
component "total" class HoldComponent reads "/speed" queue 3 writes "/total" overflow OLDEST
context "default_grp" processors 2 order "control" "total"
ok'
  begin 'a page has the verdict of the program and the wiring that it prints, with classes that nobody knows'
  answering lawful 0 'lawful: played 8, shadowed 0, calls 8, written 16' "$wiring"
  page_of burst burst/burst.dag burst/burst.rec --program "$PWD/lawful"
  says out 'written: .*/burst.html: a lawful run'
  shows burst.html 'A lawful run cyber verify says that a lawful run has this trace and this record. lawful: played 8, shadowed 0, calls 8, written 16'
  shows burst.html 'TheirOwn'
  if command -v dot >/dev/null; then
    shows burst.html 'control: TheirOwn, 3 calls'
  else
    skip 'graphs in pages' 'no Graphviz'
  fi
  shows burst.html 'context "default_grp" processors 2 order "control" "total"'
  try 0 python3 "$check" burst.html burst.trace burst.rec
  answering refusing 1 'cyber: x.trace: not a lawful run' "$wiring"
  page_of burst burst/burst.dag burst/burst.rec --program "$PWD/refusing"
  says out 'written: .*/burst.html: refused'
  shows burst.html 'cyber: x.trace: not a lawful run'
  answering lacking 6 'cyber: out of memory' ''
  page_of burst burst/burst.dag burst/burst.rec --program "$PWD/lacking" --stop 'total@9'
  says out 'written: .*/burst.html: not verified'
  shows burst.html 'cyber: out of memory'
  shows burst.html '--stop total@9'
  try 0 python3 "$check" burst.html burst.trace burst.rec
  if [ -x "$program" ]; then
    page_of burst burst/burst.dag burst/burst.rec --program "$program"
    says out 'written: .*/burst.html: a lawful run'
    shows burst.html 'lawful: played 8, shadowed 0, calls 8, written 16'
  fi
}

shows_names() {
  begin 'names that could mean something to a page are texts'
  python3 "$top/tests/tools/hostile_names.py" .
  python3 "$top/tests/replay.py" out.rec out.trace line --dag names.dag --record names.rec
  try 0 "$python" "$top/tools/report.py" --dag names.dag --record names.rec --out out.rec --trace out.trace --program none names.html
  try 0 python3 "$check" names.html out.trace out.rec
  pages+=("names=$PWD/names.html")
}

shows_some_of_many() {
  begin 'the page of sixty thousand calls has some of them, takes less than 100 MB and has less than 5 MB'
  python3 "$top/tests/tools/long_run.py" 60000 long
  passing /in /out ''
  try 0 python3 "$top/tests/tools/measure.py" usage "$python" "$top/tools/report.py" --dag pass.dag --record long.rec --out long.rec \
    --trace long.trace --program none long.html
  [ "$(sed -n 's/^memory //p' usage)" -lt 100000000 ]
  count $? "$name: $(cat usage)"
  try 0 python3 "$check" long.html long.trace long.rec
  pages+=("sampled=$PWD/long.html")
}

# A DAG file of one component that passes messages on.
passing() { # from which channel, to which, and of which type
  printf '%s\n' 'module_config { components { class_name: "PassComponent" config { name: "pass"' \
    "config_file_path: 'pass.conf' readers { channel: '$1' } } } }" >pass.dag
  printf '%s\n' "out: '$2'" "out_type: '$3'" >pass.conf
}

shows_fields() {
  local speed range
  begin 'numbers in messages of described types are plotted'
  if ! "$python" -c 'import google.protobuf' 2>/dev/null; then
    skip 'plots of described messages' 'no Protocol Buffers package'
    return
  fi
  passing /chassis /copy demo.Chassis
  while IFS='|' read -r speed range; do
    "$python" "$top/tests/tools/described_record.py" in.rec "$speed"
    python3 "$top/tests/replay.py" out.rec out.trace line --dag pass.dag --record in.rec
    try 0 "$python" "$top/tools/report.py" --dag pass.dag --record in.rec --out out.rec --trace out.trace --program none page.html
    shows page.html "/chassis speed 2 numbers, from $range"
    shows page.html "/copy speed 2 numbers, from $range"
    try 0 python3 "$check" page.html out.trace out.rec
  done <<'SPEEDS'
3.25|1.5 to 3.25
-2e38|−2e+38 to 1.5
SPEEDS
  begin 'the values that a component file gives are plotted'
  passing /chassis /copy demo.Chassis
  echo 'value { channel: "/chassis" path: 2 kind: FLOAT scale: 100 }' >>pass.conf
  "$python" "$top/tests/tools/described_record.py" in.rec
  python3 "$top/tests/replay.py" out.rec out.trace line --dag pass.dag --record in.rec
  try 0 "$python" "$top/tools/report.py" --dag pass.dag --record in.rec --out out.rec --trace out.trace --program none page.html
  shows page.html '/chassis 2 numbers, from 150 to 325'
  shows page.html '/chassis speed 2 numbers, from 1.5 to 3.25'
  try 0 python3 "$check" page.html out.trace out.rec pass.dag
  try 0 "$python" "$top/tools/report.py" --dag pass.dag --record in.rec --out out.rec --trace out.trace \
    --program "$top/tests/tools/stand_in.py" same.html
  shows same.html '/chassis 2 numbers, from 150 to 325'
  shows_fields_of_other_types
}

# /stamp has two messages of demo.Header, of which only the description of /chassis tells. In bare.rec nothing is described.
shows_fields_of_other_types() {
  local given
  begin 'numbers are plotted by the description of a channel that uses their type, or by a set'
  "$python" "$top/tests/tools/described_record.py" in.rec 3.25 types
  PYTHONPATH="$top/tools" python3 -c 'from record import *
data = open("in.rec", "rb").read()
tape, forms = messages_of(data) + [(b"/stamp", 80, number(2, 5)), (b"/stamp", 90, number(2, 6))], forms_of(data)
forms[b"/stamp"] = (b"demo.Header", b"")
open("stamps.rec", "wb").write(record(tape, forms))
open("bare.rec", "wb").write(record(tape, {channel: (kind, b"") for channel, (kind, _) in forms.items()}))'
  passing /stamp /copy demo.Header
  for given in stamps.rec 'bare.rec --types types'; do
    python3 "$top/tests/replay.py" out.rec out.trace line --dag pass.dag --record "${given%% *}"
    # shellcheck disable=SC2086
    try 0 "$python" "$top/tools/report.py" --dag pass.dag --record $given --out out.rec --trace out.trace --program none page.html
    shows page.html '/copy stamp 2 numbers, from 5 to 6'
  done
  fails_in_one_line 1 'report: line: no FileDescriptorSet: .*' "$python" "$top/tools/report.py" --dag pass.dag --record bare.rec \
    --types line --out out.rec --trace out.trace --program none none.html
}

shows_no_message() {
  begin 'a run without a message has a page'
  passing /in /out ''
  PYTHONPATH="$top/tools" python3 -c 'from record import record; import sys; sys.stdout.buffer.write(record([]))' >in.rec
  python3 "$top/tests/replay.py" out.rec out.trace line --dag pass.dag --record in.rec
  try 0 "$python" "$top/tools/report.py" --dag pass.dag --record in.rec --out out.rec --trace out.trace --program none page.html
  try 0 python3 "$check" page.html out.trace out.rec
  pages+=("empty=$PWD/page.html")
}

refuses_runs() {
  local call=("$python" "$top/tools/report.py" --dag pass.dag --record in.rec --program none)
  begin 'what is no replay is refused in one line, and leaves no page'
  cp "$top/examples/pass/one.rec" in.rec
  python3 "$top/tests/replay.py" out.rec out.trace line --record in.rec --pass /in /out
  passing /in /out ''
  echo x >text
  fails_in_one_line 1 'report: text: line 1: not a trace' "${call[@]}" --out out.rec --trace text page.html
  fails_in_one_line 1 'report: text: not a record' "${call[@]}" --out text --trace out.trace page.html
  fails_in_one_line 1 'report: in.rec: fewer messages .*' "${call[@]}" --out in.rec --trace out.trace page.html
  fails_in_one_line 1 'report: none: No such file or directory' "${call[@]}" --out none --trace out.trace page.html
  fails_in_one_line 1 'report: none/out.trace: No such file or directory' "${call[@]}" --out out.rec --trace out.trace --good none page.html
  [ ! -e page.html ]
  count $? "$name: there is a page"
  try 0 python3 "$top/tests/tools/damaged.py" 12 out.trace "${call[@]}" --out out.rec --trace FILE page.html
  try 0 python3 "$top/tests/tools/damaged.py" 12 out.rec "${call[@]}" --out FILE --trace out.trace page.html
  try 0 "$python" "$top/tools/report.py" --help
}

shows_batches() {
  local tool="$top/batch/pages.py" drive copy
  begin 'the page of a batch has its rows, and a page for each drive'
  python3 "$top/tests/tools/drives.py" 200 .
  python3 "$top/tests/tools/summed_up.py" drives.csv batch.out
  for drive in d1 d7 d9; do
    try 0 "$python" "$tool" --out batch.out --table drives.csv --drive "$drive" --program none
  done
  try 0 python3 "$check" batch.out/d1/report.html batch.out/d1/out.trace batch.out/d1/out.rec
  try 0 python3 "$check" batch.out/d9/report.html batch.out/d9/out.trace batch.out/d9/out.rec
  shows batch.out/d9/report.html 'Drive d9'
  shows batch.out/d9/report.html '--stop sum@100'
  shows batch.out/d7/report.html 'cyber: 7.rec: at 2137: Cut'
  try 0 "$python" "$tool" --out batch.out
  says out 'written: batch.out/report.html: 200 drives'
  try 0 python3 "$check" batch.out/report.html
  shows batch.out/report.html '198 well, 2 failed, 0 not done.'
  cp -r batch.out last.out
  sed -i 's/^d3,0,32,0,64,96,/d3,0,32,0,60,92,/; s/^d200/d201/' last.out/summary.csv
  try 0 "$python" "$tool" --out batch.out --last last.out
  shows batch.out/report.html '198 well, 2 failed, 0 not done, 0 unlike the good run.'
  shows batch.out/report.html '64was 60'
  shows batch.out/report.html 'That run also had d201.'
  try 0 "$python" "$tool" --out batch.out --table drives.csv --drive d1 --program none --good last.out
  shows batch.out/d1/report.html 'Nothing differs: both runs have the same messages'
  try 0 "$python" "$tool" --out batch.out --table drives.csv --drive d12 --program none
  shows batch.out/d12/report.html 'it is not done'
  fails_in_one_line 1 "pages.py: drives.csv: no drive d201" "$python" "$tool" --out batch.out --table drives.csv --drive d201
  fails_in_one_line 1 'pages.py: none/summary.csv: No such file or directory' "$python" "$tool" --out none
  pages+=("batch=$PWD/batch.out/report.html")
  begin 'the page of a drive with a component outside has its command'
  python3 "$top/tests/tools/drives.py" 7 .
  move_outside
  try 0 python3 "$top/batch/play.py" --table own.csv --drive d1 --program "$player" --out batch.out
  try 0 python3 "$top/batch/play.py" --table own.csv --drive d7 --program "$player" --out batch.out
  for drive in d1 d7; do
    try 0 "$python" "$tool" --out batch.out --table own.csv --drive "$drive" --program "$player"
  done
  try 0 python3 "$check" batch.out/d1/report.html batch.out/d1/out.trace batch.out/d1/out.rec
  shows batch.out/d1/report.html 'A lawful run'
  shows batch.out/d1/report.html 'class ExternalComponent reads "/a" queue 1 writes "/sum" answers "batch.out/d1/answers/sum.rec" 30'
  shows batch.out/d1/report.html "ExternalComponentasked: $(sed "s/.*='//; s/'$//" <<<"$copy")"
  shows batch.out/d7/report.html "$copy"
}

clicks_in_pages() {
  begin 'in a browser, pages zoom, move, sort and filter, and load nothing'
  if ! has_browser && ! { install_packages chromium && has_browser; }; then
    skip 'clicks in pages' 'no Chromium'
    return
  fi
  try 0 timeout 900 python3 "$top/tests/tools/click_report.py" "${pages[@]}"
  [ ! -s out ]
  count $? "$name: $(cat out)"
}

has_browser() {
  command -v chromium chromium-browser google-chrome >/dev/null
}

. "$top/tests/tools/front.sh"

release() {
  if [ ! -x "$program" ]; then
    skip release "no program at $program"
    return
  elif ! git -C "$top" rev-parse HEAD >/dev/null 2>&1; then
    skip release 'this is no clone with a commit'
    return
  fi
  begin 'a release has the program, its page, its completions and what was proved'
  write_log >gate.log
  try 0 "$top/release/make.sh" --out "$PWD/made" --gate gate.log "$program"
  mkdir tar
  tar -xzf made/*.tar.gz -C tar --strip-components 1
  cmp -s tar/lib/zektrob/crates/cyber/out/cyber "$program"
  count $? "$name: the program is another one"
  [[ $(readlink tar/bin/cyber) == ../lib/zektrob/cyber && -x tar/lib/zektrob/cyber ]]
  count $? "$name: the command is no link to the front"
  [ ! -e tar/lib/zektrob/front/repository.sh ] && [ ! -e tar/lib/zektrob/crates.txt ]
  count $? "$name: it has what builds the program"
  cmp -s tar/lib/zektrob/tools/why_not.py "$top/tools/why_not.py" && [ -x tar/lib/zektrob/tools/why_not.py ] && [ -f tar/lib/zektrob/batch/Snakefile ]
  count $? "$name: the tools or the batch are missing"
  try 0 tar/bin/cyber --version
  says out "cyber 0~[0-9]{8}\.[0-9a-f]{8}, commit $(git -C "$top" rev-parse HEAD)( with changes.*)?, [0-9-]{10}, proved with logic 0123456789abcdef"
  try 0 python3 tar/lib/zektrob/tools/messages.py tar/share/doc/zektrob/examples/pass/one.rec
  says out '/in 1 100 7'
  says tar/share/doc/zektrob/PROVED "commit $(git -C "$top" rev-parse HEAD)( with changes.*)?"
  says tar/share/doc/zektrob/PROVED 'logic 0123456789abcdef'
  says tar/share/doc/zektrob/PROVED 'proofs rt: ok; every proof was done in this run'
  says tar/share/doc/zektrob/PROVED 'gate 12 passed, 0 failed, 3 skipped'
  (cd tar && sed -n 's/^\([0-9a-f]\{64\}  \)/\1/p' share/doc/zektrob/PROVED | sha256sum -c --quiet) >sums 2>&1
  count $? "$name: $(head -n 3 sums)"
  [ "$(grep -c '^[0-9a-f]\{64\}  ' tar/share/doc/zektrob/PROVED)" -eq $(($(find tar -type f | wc -l) - 1)) ]
  count $? "$name: PROVED doesn't have the sum of each file"
  try 0 "$top/release/make.sh" --out "$PWD/again" --gate gate.log "$program"
  diff -r made again >/dev/null
  count $? "$name: made again it is another one"
  try 1 "$top/release/make.sh" --out "$PWD/made" none
  refuses_logs
  reads_manual tar/share/man/man1/cyber.1.gz
  completes tar/share
  tours_the_package
}

# Unpacks the package into a folder that others may read, as an image is made: the folder stays so, and the command runs there.
unpack_package() { # the package
  mkdir -m 755 unpacked
  try 0 dpkg -x "$1" unpacked
  [ "$(stat -c %a unpacked)" = 755 ]
  count $? "$name: the folder has the mode $(stat -c %a unpacked)"
  dpkg-deb -c "$1" >contents
  says contents 'drwxr-xr-x root/root .* \./'
  cp -r unpacked/usr/share/doc/zektrob/examples unpacked/
  try 0 python3 "$top/tests/tools/tour.py" unpacked/examples/README.md unpacked "$PWD/unpacked/usr/bin/cyber"
  try 2 unpacked/usr/bin/cyber paly
  says err "  There is no command 'paly'. Did you mean play\?"
  try 3 unpacked/usr/bin/cyber info none
  says err "  Reading 'none' failed. There is no such file..*"
}

tours_the_package() {
  begin 'the tour of the examples runs where the package alone is installed'
  if ! command -v dpkg-deb >/dev/null; then
    skip 'the package' 'no dpkg-deb'
    return
  fi
  "$top/release/make.sh" --out "$PWD" "$program" >/dev/null
  unpack_package ./*.deb
  install_package ./*.deb
  try 0 python3 "$top/tests/tools/tour.py" empty/examples/README.md empty "${call[@]}"
  says out '[0-9]+ lines typed'
}

# What a gate prints that passed.
write_log() {
  printf '%s\n' 'logic=proved functions=1 sum=0123456789abcdef native=nat' 'rt: x proved' 'rt: ok; every proof was done in this run' \
    '9 passed, 0 failed'
  "$top/release/gate.sh" "$program"
  printf '1 promises, 0 faults\ngate: 12 passed, 0 failed, 3 skipped\n\nreal\t1m\n'
}

# Looks that no release is made with the log of a gate that failed, that was stopped, or that was of something else.
refuses_logs() {
  sed 's/^9 passed, 0/24 passed, 15/' gate.log >bad.log
  refuses_log 'the gate failed: 24 passed, 15 failed'
  (echo 'rt: FAILED: x'; cat gate.log) >bad.log
  refuses_log 'the gate failed: rt: FAILED: x'
  sed '/^rt: ok/d' gate.log >bad.log
  refuses_log 'the gate did not come to its end: no line says that rt ci passed'
  sed '5,$d' gate.log >bad.log
  refuses_log "the gate did not come to its end: its last line is '9 passed, 0 failed'"
  : >bad.log
  refuses_log 'the gate did not come to its end: no line says that rt ci passed'
  sed 's/, program ....../, program 000000/' gate.log >bad.log
  refuses_log "the gate was of 'commit .*, program 000000.*', and this is commit .*"
  sed 's/^commit ....../commit 000000/' gate.log >bad.log
  refuses_log "the gate was of 'commit 000000.*', and this is commit .*"
  sed 's/^gate: .*/gate: 12 passed, 1 failed, 3 skipped/' gate.log >bad.log
  refuses_log 'the gate failed: gate: 12 passed, 1 failed, 3 skipped'
  sed '/^commit/d' gate.log >bad.log
  refuses_log "the gate was of 'nothing that it names', and this is commit .*"
}

refuses_log() { # why
  try 1 "$top/release/make.sh" --out "$PWD/bad" --gate bad.log "$program"
  says err "release/make.sh: $1"
  [ ! -e bad ]
  count $? "$name: something was made"
}

reads_manual() { # the page
  if ! command -v man >/dev/null; then
    skip 'the manual page' 'no man'
    return
  fi
  MANWIDTH=100 man --warnings -l "$1" >page 2>warnings
  [ ! -s warnings ]
  count $? "$name: the manual page: $(head -n 3 warnings)"
  for it in NAME SYNOPSIS PLAY VERIFY PASS CHECK INFO MAKE; do
    says page "$it"
  done
}

# Each option that the commands have is completed, and no other one.
completes() { # the folder with the completions
  local options
  options=$(sed -n '/^    cyber /,/^$/p' "$top/docs/COMMANDS.md" | grep -o -- '--[a-z]*' | sort -u)
  # shellcheck disable=SC2016
  bash -c '. "$1"; COMP_WORDS=(cyber play --); COMP_CWORD=2; _cyber; printf "%s\n" "${COMPREPLY[@]}"' - \
    "$1/bash-completion/completions/cyber" | sort -u | diff - <(echo "$options") >difference
  count $? "$name: bash completes other options: $(cat difference)"
  # shellcheck disable=SC2016
  bash -c '. "$1"; COMP_WORDS=(cyber ""); COMP_CWORD=1; _cyber; echo "${COMPREPLY[*]}"' - "$1/bash-completion/completions/cyber" >commands
  says commands 'play verify pass check info make recover split merge help'
  grep -o -- "'--[a-z]*" "$1/zsh/vendor-completions/_cyber" | tr -d "'" | sort -u | diff - <(echo "$options") >difference
  count $? "$name: zsh completes other options: $(cat difference)"
  if command -v zsh >/dev/null; then
    try 0 zsh -n "$1/zsh/vendor-completions/_cyber"
  else
    skip 'the syntax of the completions of zsh' 'no zsh'
  fi
}

# Puts the name of a Snakemake of the release that the profiles are for into `snakemake`.
has_snakemake() {
  for snakemake in snakemake /usr/bin/snakemake "$environment/bin/snakemake"; do
    [[ $("$snakemake" --version 2>/dev/null) == 7.* ]] && return
  done
  return 1
}

# Finds a Snakemake of that release, or installs it.
find_snakemake() {
  has_snakemake || { install_packages snakemake && has_snakemake; } || { install_modules 'snakemake<8' 'pulp<2.8' && has_snakemake; }
}

# How many drives have a row.
rows() {
  find batch.out -name row.json 2>/dev/null | wc -l
}

# When each row was written.
times() {
  find batch.out -name row.json -printf '%p %T@\n' | sort
}

# Looks that a batch of 200 drives, of which the 7th and the 11th are broken, is told as it is.
is_summed_up() {
  says out '200 drives: 198 well, 2 failed, 0 not done'
  says err 'batch: not all is well: batch.out/summary.csv has a row for each drive'
  [ "$(wc -l <batch.out/summary.csv)" -eq 201 ]
  count $? "$name: not a row for each drive"
  says batch.out/summary.csv 'd7,1,,,,,[0-9.]+,[0-9.]+,[0-9]+,,(no good run|),cyber: 7.rec: at 2137: Cut'
  says batch.out/summary.csv 'd11,3,,,,,[0-9.]+,[0-9.]+,[0-9]+,,(no good run|),cyber: 11.rec: the store failed'
  says batch.out/summary.csv 'd3,0,32,0,64,96,[0-9.]+,[0-9.]+,[0-9]+,,,"done: played 32, shadowed 0, calls 64, written 96"'
  says batch.out/summary.csv 'd9,0,36,0,16,52,[0-9.]+,[0-9.]+,[0-9]+,,,"done: played 36, shadowed 0, calls 16, written 52"'
}

batch() {
  patience=600
  if ! find_snakemake; then
    skip batch 'no Snakemake 7'
    return
  fi
  local call=("$snakemake" -s "$top/batch/Snakefile" --profile "$top/batch/profiles/local")
  asks_in_batches
  if [ ! -x "$program" ]; then
    skip 'batches of the built program' "no program at $program"
    return
  fi
  refuses_tables
  refuses_settings
  judges_what_is_done
  plays_200_drives
  changes_drives
  plays_on_slurm
}

plays_200_drives() {
  local before after
  begin 'a batch of 200 drives is stopped in the middle and begun again'
  python3 "$top/tests/tools/drives.py" 200 .
  "$top/tests/tools/interrupt.sh" 60 "${call[@]}" --config program="$program"
  before=$(rows)
  [ "$before" -ge 60 ] && [ "$before" -lt 200 ]
  count $? "$name: it was stopped with $before drives done"
  times >first
  try 0 "${call[@]}" --unlock --config program="$program"
  try 1 "${call[@]}" --config program="$program"
  is_summed_up
  says err 'batch: ([0-9]+) of \1 jobs done'
  ! grep -Eq 'Building DAG|Select jobs|rule play' out err log
  count $? "$name: Snakemake tells of its own: $(head -n 3 err)"
  times >second
  after=$(comm -12 first second | wc -l)
  # Of the drives that were being played one may have had its row just then; these are played again.
  [ "$after" -ge $((before - $(nproc))) ]
  count $? "$name: of $before drives only $after were left as they were"
  try 1 "${call[@]}" --config program="$program"
  times | cmp -s - second
  count $? "$name: a batch that was done has played drives again"
  batch_folder=$PWD
}

changes_drives() {
  begin 'a batch tells what differs from a good one, and a drive whose files change is played again'
  cp -r "$batch_folder/." .
  mv batch.out good
  sed -n '1p;4,7p' drives.csv >few.csv
  cp 4.rec 5.rec
  try 1 "${call[@]}" --config program="$program" table=few.csv good=good verify=verify
  says out '4 drives: 4 well, 0 failed, 0 refused, 0 not done, 1 unlike the good run, 0 without a good run'
  says batch.out/summary.csv 'd5,0,.*,verified,"message 1: /a at 10 0x0808, was /a at 10 0x080a","done: .*"'
  says batch.out/summary.csv 'd3,0,.*,verified,,"done: .*"'
  cp 4.rec 6.rec
  times >first
  try 1 "${call[@]}" --config program="$program" table=few.csv good=good verify=verify
  says out '4 drives: 4 well, 0 failed, 0 refused, 0 not done, 2 unlike the good run, 0 without a good run'
  times | comm -13 first - | cut -d ' ' -f 1 >changed
  [ "$(cat changed)" = batch.out/d6/row.json ]
  count $? "$name: played again: $(cat changed)"
  sed -i 's,^d4.*,d4;4.rec;d.dag;;/a;;;;;,; s/;/,/g' few.csv
  times >first
  try 0 "${call[@]}" --config program="$program" table=few.csv
  times | comm -13 first - | cut -d ' ' -f 1 >changed
  [ "$(cat changed)" = batch.out/d4/row.json ]
  count $? "$name: with other words: $(cat changed)"
}

# A batch that is done is compared and verified when that is asked for, without another play. What isn't asked for isn't claimed.
judges_what_is_done() {
  begin 'a batch that is done is compared and verified later'
  python3 "$top/tests/tools/drives.py" 6 .
  try 0 "${call[@]}" --config program="$program" out=good
  says out '6 drives: 6 well, 0 failed, 0 not done'
  says err 'batch: 6 of 6 jobs done'
  cp 4.rec 5.rec
  try 0 "${call[@]}" --config program="$program"
  says out '6 drives: 6 well, 0 failed, 0 not done'
  times >first
  truncate -s -1 batch.out/d2/out.trace
  try 1 "${call[@]}" --config program="$program" verify=verify
  says out '6 drives: 5 well, 0 failed, 1 refused, 0 not done'
  says batch.out/summary.csv 'd2,0,.*,status 1: cyber: batch.out/d2/out.trace: line [0-9]+: Bad,,"done: .*"'
  says batch.out/summary.csv 'd3,0,.*,verified,,"done: .*"'
  try 1 "${call[@]}" --config program="$program" good=good
  says out '6 drives: 6 well, 0 failed, 0 not done, 1 unlike the good run, 0 without a good run'
  says batch.out/summary.csv 'd5,0,.*,,"message 1: /a at 10 0x0808, was /a at 10 0x080a","done: .*"'
  try 1 "${call[@]}" --config program="$program" good=good verify='info {trace}'
  says out '6 drives: 0 well, 0 failed, 6 refused, 0 not done, 1 unlike the good run, 0 without a good run'
  rm good/d3/row.json
  try 1 "${call[@]}" --config program="$program" good=good verify='info {out}'
  says out '6 drives: 6 well, 0 failed, 0 refused, 0 not done, 1 unlike the good run, 1 without a good run'
  try 0 "${call[@]}" --config program="$program" verify='info {out}'
  says out '6 drives: 6 well, 0 failed, 0 refused, 0 not done'
  times | cmp -s - first
  count $? "$name: a drive was played again"
  counts_what_a_signal_ended
}

counts_what_a_signal_ended() {
  begin 'a drive whose play a signal ends is tried again, and is not done'
  python3 "$top/tests/tools/drives.py" 3 .
  printf '#!/bin/sh\ncase "$*" in *2.rec*) echo >>tries; kill -KILL $$;; esac\nexec "%s" "$@"\n' "$program" >killed
  chmod +x killed
  try 1 "${call[@]}" --config program="$PWD/killed" verify=verify
  says out '3 drives: 2 well, 0 failed, 0 refused, 1 not done'
  says batch.out/summary.csv 'd2,not done,,,,,,,,,,'
  says err 'play.py: a signal ended the play of d2'
  [ "$(wc -l <tries)" -eq 2 ]
  count $? "$name: $(wc -l <tries) tries"
}

# Settings that are wrong are said in one line.
refuses_settings() {
  begin 'settings that are wrong are refused'
  python3 "$top/tests/tools/drives.py" 2 .
  head -n 1 drives.csv >empty.csv
  mkdir empty
  local batch=("${call[@]}" --config program="$program")
  fails_in_one_line 1 'batch: no such setting: prgram, treads; there are table, program, out, good, verify, reports' "${batch[@]}" prgram=x treads=4
  fails_in_one_line 1 'batch: empty.csv: no drives' "${batch[@]}" table=empty.csv
  fails_in_one_line 1 'batch: none.csv: No such file or directory' "${batch[@]}" table=none.csv
  fails_in_one_line 1 'batch: good=god: no such folder' "${batch[@]}" good=god
  fails_in_one_line 1 'batch: good=empty: no run of these drives is there' "${batch[@]}" good=empty
  fails_in_one_line 1 'batch: good=./empty/../batch.out: no such folder' "${batch[@]}" good=./empty/../batch.out
  mkdir batch.out
  fails_in_one_line 1 'batch: good=./empty/../batch.out: this batch is written there; .*' "${batch[@]}" good=./empty/../batch.out
  fails_in_one_line 1 'batch: verify=info \{ot\}: no file \{ot\}; there are .*' "${batch[@]}" verify='info {ot}'
  fails_in_one_line 1 "batch: verify=info 'x: No closing quotation" "${batch[@]}" verify="info 'x"
  [ -z "$(ls batch.out)" ]
  count $? "$name: a drive was played"
}

# A table that is wrong, a drive that it doesn't have and a missing program are told in one line.
refuses_tables() {
  local play="$top/batch/play.py"
  begin 'what is wrong with a table is told'
  python3 "$top/tests/tools/drives.py" 2 .
  fails_in_one_line 1 'play.py: drives.csv: no drive d3' python3 "$play" --table drives.csv --drive d3 --program "$program" --out .
  fails_in_one_line 1 'play.py: /none: No such file or directory' python3 "$play" --table drives.csv --drive d1 --program /none --out .
  fails_in_one_line 1 'summary.py: none: No such file or directory' python3 "$top/batch/summary.py" none .
  printf '\xef\xbb\xbf' | cat - drives.csv >marked.csv
  try 0 python3 "$play" --table marked.csv --drive d1 --program "$program" --out marked
  sed '3s/d2/d1/' drives.csv >bad.csv
  fails_in_one_line 1 "play.py: bad.csv: line 3: drive 'd1' has no name of its own.*" \
    python3 "$play" --table bad.csv --drive d1 --program "$program" --out .
  sed '3s/$/many/' drives.csv >bad.csv
  fails_in_one_line 1 'play.py: bad.csv: line 3: drive d2 has .* threads that are no number' \
    python3 "$play" --table bad.csv --drive d1 --program "$program" --out .
  sed '1s/sched/shed/' drives.csv >bad.csv
  fails_in_one_line 1 "batch: bad.csv: no such columns: 'shed'" "${call[@]}" --config program="$program" table=bad.csv
  fails_in_one_line 1 'judge.py: d1 is not played' python3 "$top/batch/judge.py" --table drives.csv --drive d1 --program "$program" --out none
  head -n 1 drives.csv >bad.csv
  fails_in_one_line 1 'summary.py: bad.csv: no drives' python3 "$top/batch/summary.py" bad.csv none
}

# The component outside is a copy of a built-in one, so each drive has to have the record and the trace of that. All drives name the same
# record of answers.
asks_in_batches() {
  local python=python3 copy reports=()
  begin 'the drives of a batch with a component outside have answers of their own'
  python3 "$top/tests/tools/drives.py" 9 .
  move_outside
  try 1 "${call[@]}" --config program="$player" out=good
  if python3 -c 'import jinja2' 2>/dev/null; then
    reports=(reports=yes)
  else
    skip 'pages in batches' 'no Jinja2'
  fi
  try 1 "${call[@]}" --config program="$player" table=own.csv good=good verify=verify "${reports[@]}"
  [ "$(cat out)" = '9 drives: 8 well, 1 failed, 0 refused, 0 not done, 0 unlike the good run, 1 without a good run' ]
  count $? "$name: it prints $(head -c 300 out)"
  [ ${#reports[@]} -eq 0 ] || has_pages
  says batch.out/summary.csv 'd3,0,32,0,64,96,[0-9.]+,[0-9.]+,[0-9]+,verified,,"done: played 32, shadowed 0, calls 64, written 96"'
  says batch.out/summary.csv "d7,1,.*,external: \`cyber play\` ended with status 1: .*at 2137: .*"
  [ ! -e sum.rec ] && [ "$(find batch.out -name sum.rec | wc -l)" -eq 8 ]
  count $? "$name: the answers are $(find . -name sum.rec)"
  cp batch.out/d3/out.trace .
  ask_why_in_batch 0 lawful:
  begin 'a component outside that fails is told in the row of its drive, and played again where its files change'
  cp -r "$OLDPWD/." .
  printf '%s\n' '#!/bin/sh' 'echo >>tries' 'kill -KILL $$' >killed
  printf '%s\n' '#!/bin/sh' "exec python3 '$top/tests/tools/copy_of.py' WindowComponent sum.conf" >copied
  chmod +x killed copied
  { head -n 1 own.csv && sed -n "s|$copy||; s/$/sum=/; 3s/$/true/p; 4s/$/.\/killed/p; 5s/$/.\/copied/p" own.csv; } >few.csv
  try 1 "${call[@]}" --config program="$player" table=few.csv
  says out '3 drives: 1 well, 1 failed, 1 not done'
  says err 'play.py: a signal ended the play of d3: external: component sum: call 1 of [0-9]+: no answer: the command was ended by signal 9'
  says batch.out/summary.csv 'd2,1,.*,external: component sum: call 1 of 31: no answer: the command ended with status 0'
  [ "$(wc -l <tries)" -eq 2 ]
  count $? "$name: $(wc -l <tries) tries"
  sed -i '/^d3/d' few.csv
  times >first
  echo '# changed' >>copied
  try 1 "${call[@]}" --config program="$player" table=few.csv
  times | comm -13 first - | cut -d ' ' -f 1 >changed
  [ "$(cat changed)" = batch.out/d4/row.json ]
  count $? "$name: played again: $(cat changed)"
  refuses_commands
}

# Looks that there is a page of the batch, and one of each of its nine drives.
has_pages() {
  [ "$(find batch.out -mindepth 2 -name report.html | wc -l)" -eq 9 ]
  count $? "$name: not a page for each drive: $(find batch.out -name report.html)"
  try 0 python3 "$top/tests/tools/check_report.py" batch.out/report.html
  shows batch.out/report.html '8 well, 1 failed, 0 refused, 0 not done, 0 unlike the good run.'
  shows batch.out/d3/report.html 'Nothing differs: both runs have the same messages'
}

# Makes a table of the same drives in which a component is asked, and puts its command into `copy`.
move_outside() {
  find_player
  copy="sum='python3 $top/tests/tools/copy_of.py WindowComponent sum.conf'"
  sed 's/Window/External/; s/sum.conf/own.conf/' d.dag >own.dag
  echo 'out: "/sum" answers: "sum.rec"' >own.conf
  sed "1s/$/,run/; 2,\$s|$|,$copy|; s/d[.]dag/own.dag/" drives.csv >own.csv
}

# Looks what tools/why_not.py says of drive 3.
ask_why_in_batch() { # the status, and how the sentence begins
  try "$1" python3 "$top/tools/why_not.py" --dag batch.out/d3/answers/answered.dag --record 3.rec --out batch.out/d3/out.rec \
    --trace out.trace --drop /b
  says out "$2.*"
}

# Each row: the cell of the table, and what is said.
refuses_commands() {
  local cell said
  begin 'commands of components that are wrong are refused'
  python3 "$top/tests/tools/drives.py" 1 .
  while IFS='|' read -r cell said; do
    sed "1s/$/,run/; 2s|$|$cell|" drives.csv >bad.csv
    fails_in_one_line 1 "batch: bad.csv: line 2: drive d1: $said" "${call[@]}" --config program="$player" table=bad.csv
  done <<'CELLS'
,sum='true|run is sum='true: No closing quotation
,sum true|run has 'sum', and not NAME='COMMAND'
,sum=' '|run has 'sum= ', and not NAME='COMMAND'
2,sum=true|a play that asks the components of run is serial, and threads has to be 0 or empty
CELLS
}

# Jobs of Slurm may be forgotten, and the controller may not answer for a while.
tells_states() {
  local tells="$top/batch/profiles/slurm/status.py"
  begin 'the state of a job of Slurm is told'
  mkdir bin
  # shellcheck disable=SC2016
  printf '#!/bin/sh\ncat said; cat fault >&2; exit "$(cat status)"\n' >bin/scontrol
  printf '#!/bin/sh\nexit 1\n' >bin/sacct
  chmod +x bin/*
  while IFS='|' read -r said fault code want; do
    echo "$said" >said
    echo "$fault" >fault
    echo "$code" >status
    PATH=$PWD/bin:$PATH try 0 python3 "$tells" 7
    says out "$want"
  done <<STATES
JobId=7 JobState=COMPLETED X=1||0|success
JobId=7 JobState=PENDING X=1||0|running
JobId=7 JobState=TIMEOUT X=1||0|failed
|slurm_load_jobs error: Invalid job id specified|1|failed
|Unable to contact slurm controller|1|running
STATES
}

plays_on_slurm() {
  tells_states
  has_slurm || install_packages slurm-wlm munge
  if [ "$(id -u)" -ne 0 ] || ! has_slurm; then
    skip 'batches on Slurm' 'no slurmctld, slurmd and munged, or not root'
    return
  fi
  begin 'a batch of 200 drives is stopped in the middle and begun again on a Slurm of one node'
  python3 "$top/tests/tools/drives.py" 200 .
  call=("$snakemake" -s "$top/batch/Snakefile" --profile "$top/batch/profiles/slurm")
  # shellcheck disable=SC2016
  try 1 "$top/tests/tools/slurm.sh" bash -c '"$1" 60 "${@:2}"; find batch.out -name row.json >before; "${@:2}" --unlock && "${@:2}"' - \
    "$top/tests/tools/interrupt.sh" "${call[@]}" --config program="$program"
  is_summed_up
  [ "$(wc -l <before)" -ge 60 ] && [ "$(wc -l <before)" -lt 200 ]
  count $? "$name: it was stopped with $(wc -l <before) drives done"
  [ "$(find . -maxdepth 1 -name 'slurm-*.log' | wc -l)" -ge 50 ]
  count $? "$name: not a job for each four drives: $(ls slurm-*.log)"
}

has_slurm() {
  PATH=$PATH:/usr/sbin command -v slurmctld slurmd munged >/dev/null
}

if [ "${1:-}" = --install ]; then
  install=yes
  shift
fi
[ $# -gt 0 ] || set -- front gate timeline pictures messages external why_not report release batch
for section in "$@"; do
  "$section"
done
behind=
[ "$skipped" -eq 0 ] || behind=", $skipped skipped"
echo "$passed passed, $failed failed$behind"
[ "$failed" -eq 0 ]
