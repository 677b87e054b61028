#!/usr/bin/env bash
# Runs the built program where the machine sets limits or gives odd files, and compares each status, each line, and what the files hold then.
# Usage: tests/limits.sh [PROGRAM]; without a word it takes the program that `rt ci` left in this repository. What root alone may set up is
# left out for others, by name. Nothing stays behind, and no file is larger than a few MB.
set -uo pipefail
top=$(cd "$(dirname "$0")/.." && pwd)
program=$(readlink -f "${1:-$top/crates/cyber/out/cyber}")
[ -x "$program" ] || { echo "tests/limits.sh: no program at $program" >&2; exit 1; }
work=$(mktemp -d)
trap 'umount "$work"/*/files/small 2>/dev/null; rm -rf "$work"' EXIT
. "$top/tests/program/counting.sh"

PLAY='play --serial --dag d.dag --record in.rec --out out.rec --trace trace'
THREADS='play --dag d.dag --record in.rec --out out.rec --trace trace'
VERIFY='verify --dag d.dag --record in.rec --out done.rec --trace done.trace'
PASS='pass in.rec out.rec trace /in /out'
RECOVER='recover done.rec out.rec'
SPLIT='split done.rec out.rec'
RECOVERED='done: messages 2000, dropped 0'
PARTED='done: messages 2000 of 2000'
DONE='done: played 1000, shadowed 0, calls 1000, written 2000'
LAWFUL='lawful: played 1000, shadowed 0, calls 1000, written 2000'

# The launcher beside this program, in a folder of its own, where nothing is newer than the program, so that it builds nothing.
launcher_of_program() {
  mkdir -p "$work/launched/crates/cyber/out"
  cp -r "$top/cyber" "$top/front" "$top/crates.txt" "$top/HANDLES" "$work/launched/"
  cp "$program" "$work/launched/crates/cyber/out/cyber"
  launcher=$work/launched/cyber
}

# The files that each case begins with: those of a play of a thousand messages, what it writes (`done`), and what has to be written (`want`).
files_of_a_play() {
  mkdir -p "$work/given/files" "$work/given/want"
  cd "$work/given/files" || exit 1
  cp "$top/examples/pass/thousand.rec" in.rec
  printf 'module_config { components { class_name: "PassComponent" config { name: "pass" config_file_path: "p.conf" %s } } }\n' \
    'readers { channel: "/in" }' >d.dag
  echo 'out: "/out"' >p.conf
  python3 "$top/tests/replay.py" done.rec done.trace ../want/line --dag d.dag --record in.rec
  cp done.rec ../want/rec
  cp done.trace ../want/trace
  : >../want/nothing
  echo old >../want/old
}

# Runs the program or its launcher where something is set up, and compares the status and the line. An `itself` is the program with the two
# signals of failed writes as they are by default. It gets room for 1 GiB, so that one that read a device without end would be noticed before the machine is
# full.
meets() { # who is run, what it meets, a command that sets it up, the words, the status, and the line, behind `cyber: ` unless it is Done
  local command=(timeout 60 "$program")
  [ "$1" != launched ] || command=(timeout 60 "$launcher")
  [ "$1" != itself ] || command=(timeout 60 env '--default-signal=PIPE,XFSZ' "$program")
  begin "$1 with $2, asked for '${4%% *}'"
  cp -r "$work/given/." .
  : >out
  : >err
  # shellcheck disable=SC2086
  (ulimit -v 1048576 && cd files && eval "$3" && exec "${command[@]}" $4) >>out 2>>err
  status=$?
  # What the launcher explains below the program's line is tried by tests/tools.sh.
  [ "$1" != launched ] || sed -i '2,$d' err
  if [ "$5" -eq 0 ]; then
    ends 0 "$6" ''
  else
    ends "$5" '' "${6:+cyber: $6}"
  fi
}

# Mounts a small file system in memory, in the folder `small` of a case.
mount_small() { # its options
  mkdir small && mount -t tmpfs -o "$1" tmpfs small
}

# Waits until a condition holds, for ten seconds at most.
await() { # the condition
  local time
  for ((time = 0; time < 1000; time++)); do
    if eval "$1"; then
      return
    fi
    sleep 0.01
  done
}

# Whether this user may mount a file system, which root may not everywhere either.
may_mount() {
  mkdir "$work/small" && mount -t tmpfs -o size=64k tmpfs "$work/small" 2>/dev/null && umount "$work/small"
}

# Looks that a record is what was written of `want/rec` before a write failed: the header counts nothing and isn't complete, and what
# stands behind it is the front of what was to stand there.
is_cut_short() { # the file
  local size
  size=$(stat -c %s "$1")
  [ "$size" -ge 2064 ] && [ "$size" -lt "$(stat -c %s want/rec)" ]
  count $? "$name: $1 has $size bytes"
  cmp -s <(tail -c +2065 "$1") <(head -c "$size" want/rec | tail -c +2065)
  count $? "$name: $1 isn't the front of what was to be written"
  is_incomplete "$1"
}

# Looks that the files of a play were written whole.
both_whole() {
  holds files/out.rec want/rec
  holds files/trace want/trace
}

OUT='out.rec: the store failed'
IN='in.rec: the store failed'
TRACE='trace: the store failed'
SINK='the output failed'

# The system ends a process that writes past its limit of file size, unless it ignores that signal, as the launcher has it do; then the write
# fails. The signal of a pipe whose reader has gone every program of the toolchain ignores.
signals() {
  local gone='mkfifo p && exec 3<>p 4>p 3>&- && rm p'
  meets launched 'a limit of file size' 'ulimit -f 8' "$PASS" 3 "$OUT"
  is_cut_short files/out.rec
  lacks files/trace
  meets launched 'a limit of file size' 'ulimit -f 8' "$PLAY" 3 "$OUT"
  is_cut_short files/out.rec
  meets launched 'a limit of file size that the trace passes' 'ulimit -f 40' "$PASS" 3 "$TRACE"
  holds files/out.rec want/rec
  [ "$(stat -c %s files/trace)" = 40960 ] && cmp -s files/trace <(head -c 40960 want/trace)
  count $? "$name: the trace isn't the front of what was to be written"
  meets launched 'a limit of file size' 'ulimit -f 8' "$RECOVER" 3 "$OUT"
  is_cut_short files/out.rec
  meets launched 'a limit of file size' 'ulimit -f 8' "$SPLIT" 3 "$OUT"
  is_cut_short files/out.rec
  meets launched 'a limit of file size of nothing, for the line too' 'ulimit -f 0' "$PASS" 4 ''
  holds files/out.rec want/nothing
  lacks files/trace
  meets itself 'a limit of file size' 'ulimit -f 8' "$PASS" 153 '' 2>/dev/null
  is_cut_short files/out.rec
  lacks files/trace
  meets itself 'a standard output whose reader has gone' "$gone && exec >&4" "$PASS" 4 "$SINK"
  both_whole
  meets itself 'a standard output whose reader has gone' "$gone && exec >&4" "$VERIFY" 4 "$SINK"
  meets itself 'a standard error whose reader has gone' "$gone && rm in.rec && exec 2>&4" "$PASS" 4 ''
  lacks files/out.rec
  meets itself 'both streams gone' "$gone && exec >&4 2>&4" "$PASS" 4 ''
  both_whole
}

# Streams that are closed, with no other file open.
closed_streams() {
  meets program 'a closed standard output' 'exec >&-' "$PASS" 4 "$SINK"
  both_whole
  meets program 'a closed standard output' 'exec >&-' "$RECOVER" 4 "$SINK"
  holds files/out.rec want/rec
  meets program 'a closed standard output' 'exec >&-' "$SPLIT" 4 "$SINK"
  holds files/out.rec want/rec
  meets program 'a closed standard error' 'rm in.rec; exec 2>&-' "$PASS" 4 ''
  lacks files/out.rec
  meets program 'all streams closed' 'exec <&- >&- 2>&-' "$PASS" 4 ''
  both_whole
  meets program 'all streams closed' 'rm in.rec; exec <&- >&- 2>&-' "$PASS" 4 ''
  lacks files/out.rec
  meets program 'standard input closed' 'exec <&-' "$PASS" 0 "$DONE"
  both_whole
}

# A disk that is full, or isn't to be written: a small file system in memory.
full_disks() {
  if ! may_mount; then
    leave_out 'root alone may mount a file system' 'full disks, and disks that are not to be written'
    return
  fi
  local out='small/out.rec: the store failed' trace='small/trace: the store failed'
  meets program 'a disk that fills with the record' 'mount_small size=16k' "${PASS/out.rec/small/out.rec}" 3 "$out"
  is_cut_short files/small/out.rec
  lacks files/trace
  umount files/small
  meets program 'a disk that fills with the record' 'mount_small size=16k' "${RECOVER/out.rec/small/out.rec}" 3 "$out"
  is_cut_short files/small/out.rec
  umount files/small
  meets program 'a disk that fills with the trace' 'mount_small size=64k' "pass in.rec small/out.rec small/trace /in /out" 3 "$trace"
  holds files/small/out.rec want/rec
  umount files/small
  meets program 'a disk with no room for a byte' 'mount_small size=4k; head -c 4096 /dev/zero >small/full' "${PASS/trace/small/trace}" 3 "$trace"
  holds files/out.rec want/rec
  holds files/small/trace want/nothing
  umount files/small
  meets program 'a disk with no room for a file' 'mount_small size=64k,nr_inodes=1' "${PASS/out.rec/small/out.rec}" 3 "$out"
  lacks files/small/out.rec
  lacks files/trace
  umount files/small
  meets program 'a disk that is not to be written' 'mount_small size=64k,ro' "${PASS/out.rec/small/out.rec}" 3 "$out"
  lacks files/small/out.rec
  lacks files/trace
  umount files/small
  meets program 'a record on a disk that is not to be written' \
    'mount_small size=64k; cp in.rec small/; mount -o remount,ro small' "${PASS/in.rec/small/in.rec}" 0 "$DONE"
  both_whole
  umount files/small
}

# Odd files where a record is read. A pipe is told to fail: it has no place from which a file could be read again.
odd_records() {
  meets program 'a pipe as the record' 'rm in.rec; mkfifo in.rec; exec 3<>in.rec' "$PASS" 3 "$IN"
  lacks files/out.rec
  meets program 'a pipe with a record in it' 'rm in.rec; mkfifo in.rec; exec 3<>in.rec; head -c 4000 done.rec >in.rec' 'info in.rec' 3 "$IN"
  meets program 'a record as standard input' 'exec <in.rec' "${PASS/in.rec//dev/stdin}" 0 "$DONE"
  both_whole
  meets program 'a folder as the record' 'rm in.rec; mkdir in.rec' "$PLAY" 3 "$IN"
  lacks files/out.rec
  meets program 'a link to itself as the record' 'rm in.rec; ln -s in.rec in.rec' "$PASS" 3 "$IN"
  meets program 'a link to nothing as the record' 'ln -sf nothing in.rec' "$PASS" 3 "$IN"
  meets program 'a link to the record' 'mv in.rec r; ln -s r in.rec' "$PASS" 0 "$DONE"
  both_whole
  meets program 'a device without bytes as the record' 'ln -sf /dev/null in.rec' "$PASS" 1 'in.rec: not a record'
  meets program 'a device without end as the record' 'ln -sf /dev/zero in.rec' "$PASS" 1 'in.rec: not a record'
  meets program 'a record of the system' 'ln -sf /proc/self/status in.rec' "$PASS" 1 'in.rec: not a record'
  lacks files/out.rec
  meets program 'a pipe as the DAG file' 'rm d.dag; mkfifo d.dag; exec 3<>d.dag' "$PLAY" 3 'd.dag: the store failed'
  meets program 'a folder as a component file' 'rm p.conf; mkdir p.conf' "$PLAY" 3 'p.conf: the store failed'
  meets program 'a pipe as the record' 'rm done.rec; mkfifo done.rec; exec 3<>done.rec' "$RECOVER" 3 'done.rec: the store failed'
  lacks files/out.rec
  meets program 'a device without end as the record' 'ln -sf /dev/zero done.rec' "$RECOVER" 1 'done.rec: not a record'
  lacks files/out.rec
  meets program 'a pipe as the trace' 'rm done.trace; mkfifo done.trace; exec 3<>done.trace' "$VERIFY" 3 'done.trace: the store failed'
  meets program 'a device as the record that was written' 'ln -sf /dev/null done.rec' "$VERIFY" 1 'done.rec: differs at 0'
}

# A section whose head says more bytes than the file has behind it. There is room for a few MB alone, so nothing may be asked for it: the
# section is refused, or `recover` drops its 32 bytes.
lying_sizes() {
  local type size lie cut='at 2064: Cut'
  for type in 1 2 4; do # the header of a chunk, its body, and a channel
    for size in 17 536870912; do
      lie="python3 '$top/tests/large.py' in.rec lie $type $size; cp in.rec done.rec; ulimit -v 8192"
      meets program "a section of type $type that says $size bytes" "$lie" 'info in.rec' 1 "in.rec: $cut"
      meets program "a section of type $type that says $size bytes" "$lie" "$PASS" 1 "in.rec: $cut"
      meets program "a section of type $type that says $size bytes" "$lie" "$SPLIT" 1 "done.rec: $cut"
      lacks files/out.rec
      meets program "a section of type $type that says $size bytes" "$lie" "$RECOVER" 0 'done: messages 0, dropped 32'
    done
    lie="python3 '$top/tests/large.py' in.rec lie $type 536870913; ulimit -v 8192"
    meets program "a section of type $type that says more bytes than are read" "$lie" "$PASS" 5 'in.rec: at 2064: TooLong 536870913'
  done
}

# Odd files where one is written.
odd_outs() {
  meets program 'a folder as the out file' 'mkdir out.rec' "$PASS" 3 "$OUT"
  lacks files/trace
  meets program 'a folder as the trace' 'mkdir trace' "$PASS" 3 "$TRACE"
  holds files/out.rec want/rec
  meets program 'a pipe as the out file' 'mkfifo out.rec; exec 3<>out.rec' "$PASS" 3 "$OUT"
  lacks files/trace
  meets program 'a link to itself as the out file' 'ln -s out.rec out.rec' "$PASS" 3 "$OUT"
  meets program 'a link to nothing as the out file' 'ln -s new out.rec' "$PASS" 0 "$DONE"
  holds files/new want/rec
  meets program 'a link into no folder as the out file' 'ln -s missing/new out.rec' "$PASS" 3 "$OUT"
  meets program 'a device as the out file' 'ln -s /dev/null out.rec' "$PASS" 0 "$DONE"
  holds files/trace want/trace
  meets program 'a full device as the out file' 'ln -s /dev/full out.rec' "$PASS" 3 "$OUT"
  lacks files/trace
  meets program 'a program that runs as the out file' \
    'cp "$(command -v sleep)" out.rec; ./out.rec 9 >../sleep 2>&1 & echo $! >../pid; await "[ /proc/$!/exe -ef out.rec ]"' "$PASS" 3 "$OUT"
  kill "$(cat pid)"
  lacks files/trace
  meets program 'a name that is too long' ':' "${PASS/out.rec/$(printf '%0300d' 0)}" 3 "$(printf '%0300d' 0): the store failed"
  lacks files/trace
}

# Looks that each file that was given is as it was, and that there is no further one.
as_given() {
  local file
  for file in "$work"/given/files/*; do
    holds "files/${file##*/}" "$file"
  done
  [ "$(find files -type f -printf '%i\n' | sort -u | wc -l)" -eq "$1" ]
  count $? "$name: another number of files than $1"
}

# A file to be written that is one of those to be read, or another one to be written, by whatever name.
is_also() { # the setup, the words, the name, and the other one; how many files are made by the setup
  meets program "$3 that is also $4 ($1)" "$1" "$2" 1 "$3: is also $4"
  as_given $(($(ls "$work/given/files" | wc -l) + ${5:-0}))
}

other_names() {
  local to='make 4 m'
  is_also ':' "${PASS/out.rec/./in.rec}" ./in.rec in.rec
  is_also 'ln in.rec out.rec' "$PASS" out.rec in.rec
  is_also 'ln -s in.rec out.rec' "$PASS" out.rec in.rec
  is_also 'mkdir sub' "${PASS/out.rec/sub/../in.rec}" sub/../in.rec in.rec
  is_also 'ln -s . here' "${PASS/out.rec/here/in.rec}" here/in.rec in.rec
  is_also 'ln -s "$PWD/in.rec" link; ln -s link out.rec' "$PASS" out.rec in.rec
  is_also ':' "${PASS/ trace/ ./in.rec}" ./in.rec in.rec
  is_also ':' "${PASS/ trace/ ./out.rec}" ./out.rec out.rec
  is_also 'mkdir sub' "${PASS/ trace/ sub/../out.rec}" sub/../out.rec out.rec
  is_also 'ln -s new out.rec' "${PASS/ trace/ new}" new out.rec
  is_also 'ln -s ../files/new out.rec; ln -s new trace' "$PASS" trace out.rec
  is_also 'touch out.rec; ln out.rec trace' "$PASS" trace out.rec 1
  is_also ':' "${PLAY/out.rec/./in.rec}" ./in.rec in.rec
  is_also ':' "${PLAY/out.rec/p.conf}" p.conf p.conf
  is_also ':' "${PLAY/out.rec/./p.conf}" ./p.conf p.conf
  is_also 'ln -s p.conf trace' "$PLAY" trace p.conf
  is_also 'ln d.dag trace' "$PLAY" trace d.dag
  is_also 'echo >s.conf "scheduler_conf { classic_conf { groups { name: \"g\" processor_num: 1 } } }"; ln s.conf out.rec' \
    "$PLAY --sched s.conf" out.rec s.conf 1
  is_also 'ln -s in.rec out.rec' "$THREADS" out.rec in.rec
  is_also ':' "${RECOVER/out.rec/./done.rec}" ./done.rec done.rec
  is_also 'ln done.rec out.rec' "$RECOVER" out.rec done.rec
  is_also ':' "${SPLIT/out.rec/./done.rec}" ./done.rec done.rec
  is_also 'ln -s done.rec out.rec' "$SPLIT" out.rec done.rec
  is_also 'ln -s m.dag m.trace' "$to" m.trace m.dag
  is_also 'touch m.record; ln m.record m.out' "$to" m.out m.record 1
  is_also 'ln -s ../out m.trace' "$to" m.trace /dev/stdout
  is_also ':' "${PASS/out.rec/../out}" ../out /dev/stdout
  is_also ':' "${PASS/out.rec//dev/stdout}" /dev/stdout /dev/stdout
  is_also ':' "${PASS/ trace/ ../out}" ../out /dev/stdout
  is_also ':' "${RECOVER/out.rec/../out}" ../out /dev/stdout
  meets program 'a file of that name in another folder' 'mkdir sub' "${PASS/out.rec/sub/in.rec}" 0 "$DONE"
  holds files/sub/in.rec want/rec
  meets program 'a link to one' 'mkdir sub; ln -s sub/in.rec out.rec' "$PASS" 0 "$DONE"
  holds files/sub/in.rec want/rec
  meets program 'one device for both' 'ln -s /dev/null out.rec; ln -s /dev/null trace' "$PASS" 0 "$DONE"
  meets program 'longer files that are there' 'cp in.rec out.rec; cat in.rec in.rec >>out.rec; cp out.rec trace' "$PASS" 0 "$DONE"
  both_whole
}

# Folders and files that the user has no leave for. Root has all, so the program runs as nobody then.
no_leave() {
  local words
  for words in "$PASS" "$PLAY"; do
    begin "without leave for the folder of the out file, asked for '${words%% *}'"
    cp -r "$work/given/." .
    mkdir -m 555 files/locked
    # shellcheck disable=SC2086
    as_nobody ${words/out.rec/locked/out.rec}
    ends 3 '' 'cyber: locked/out.rec: the store failed'
    lacks files/locked/out.rec
    lacks files/trace
  done
  begin 'without leave for a folder above the record'
  cp -r "$work/given/." .
  mkdir files/locked
  mv files/in.rec files/locked/
  chmod 000 files/locked
  as_nobody info locked/in.rec
  ends 3 '' 'cyber: locked/in.rec: the store failed'
  chmod 755 files/locked
}

# Closes all that is open beside the three streams, as whoever began this may have left it open: it would take up the room for files. At 255
# the shell has its script, which no program inherits.
close_others() {
  local descriptor
  for descriptor in /proc/self/fd/*; do
    descriptor=${descriptor##*/}
    if [ "$descriptor" -gt 2 ] && [ "$descriptor" -ne 255 ]; then
      eval "exec $descriptor>&-"
    fi
  done
}

# Each file is closed before the next one is opened, so room for one beside the streams is enough. With less the C library isn't loaded, and
# no program begins; so the room is taken away while the program runs, once the first of its files is there.
open_files() {
  local room='exec 3</dev/null 9</dev/null; close_others; ulimit -n 4'
  meets program 'room for one open file' "$room" "$PASS" 0 "$DONE"
  both_whole
  meets program 'room for one open file' "$room" "$THREADS" 0 "$DONE"
  begin 'while it runs there comes to be no room for an open file'
  mkdir files
  (cd files && exec "$program" make 500000 m) >out 2>err &
  await '[ -e files/m.adder.conf ]'
  prlimit --pid $! --nofile=3:3
  wait $!
  status=$?
  ends 3 '' "$(cat err)"
  grep -Eqx 'cyber: m\.[a-z0-9.]+: the store failed' err
  count $? "$name: standard error got '$(cat err)'"
}

# Runs the program in more and more room for addresses, and looks at each answer: Done, or 6 with the line of that, or a front of it. Where
# there is too little for the C library, that says so, and no program begins (127). Of what was begun before 6 the out file is whole, or of no
# byte, or incomplete. The trace is begun only behind a whole record, and then has its beginning, of no byte or some.
memory_runs_out() { # the words, the line of Done, and the kilobytes: from, step, to
  local room answers=' '
  begin "where memory runs out, asked for '$1'"
  cp -r "$work/given/." .
  for room in $(seq "$3" "$4" "$5"); do
    rm -f files/out.rec files/trace
    # shellcheck disable=SC2086
    (cd files && ulimit -v "$room" && exec timeout 60 "$program" $1) >out 2>err
    status=$?
    answers+="$status "
    case $status in
    0) ends 0 "$2" '' ;;
    6) tells_of_no_memory "$room" "$1" ;;
    127) lacks files/out.rec ;;
    *) count 1 "$name: in $room KB status $status: '$(cat out err)'" ;;
    esac
  done
  [[ $answers = *' 6 '*' 0 ' ]]
  count $? "$name: the statuses are$answers"
}

# Looks at what a run leaves for which there was no memory. A command that writes a record alone takes the room for its line first, so that
# it never runs out of memory behind a whole record.
tells_of_no_memory() { # the kilobytes that there were, and the words
  [ ! -s out ] && head -c "$(stat -c %s err)" <(echo 'cyber: out of memory') | cmp -s - err
  count $? "$name: in $1 KB it says '$(cat out err)'"
  if [[ $2 = play* || $2 = pass* ]] && [ -e files/trace ]; then
    holds files/out.rec want/rec
    cmp -s files/trace <(head -c "$(stat -c %s files/trace)" want/trace)
    count $? "$name: in $1 KB the trace isn't the front of what was to be written"
  else
    lacks files/trace
  fi
  if [ -s files/out.rec ] && ! cmp -s files/out.rec want/rec; then
    is_cut_short files/out.rec
  elif [[ $2 = recover* || $2 = split* ]]; then
    [ ! -s files/out.rec ]
    count $? "$name: in $1 KB memory ran out behind a whole record"
  fi
}

[ "$(id -u)" -ne 0 ] || chmod 711 "$work"
launcher_of_program
files_of_a_play
signals
closed_streams
full_disks
odd_records
lying_sizes
odd_outs
other_names
no_leave
open_files
memory_runs_out "$PASS" "$DONE" 3000 50 4200
memory_runs_out "$PLAY" "$DONE" 3000 50 4200
memory_runs_out "$VERIFY" "$LAWFUL" 3000 50 4200
memory_runs_out "$RECOVER" "$RECOVERED" 3000 50 4200
memory_runs_out "$SPLIT" "$PARTED" 3000 50 4200
# What the launcher asks the C library for.
GLIBC_TUNABLES=$(sed -n 's/.*GLIBC_TUNABLES:-\([^}]*\)}.*/\1/p' "$top/front/front.sh") memory_runs_out "$PLAY" "$DONE" 20000 20000 160000

sum_up
