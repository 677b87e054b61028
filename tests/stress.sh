#!/usr/bin/env bash
# Plays the files of `make 3000` and the drive again and again, on one, two and four processors that share a context and that are
# pinned, and looks at each play: it ends with Done within 60 seconds, `info` finds its record complete and nothing in it that
# differs, its trace has the form of a trace, both have the counts of its line, tests/fetches.py finds that its calls go by the fetch
# rule, and `verify` finds that they are those of a lawful run. Each of these twelve kinds is played with a stop too, in the midst of its record; then tests/obeys.py looks at how the components
# end, and at the calls of the one that was stopped. And each is played with components that go on at the oldest tuple, with a stop and
# without. So is the drive with a timer beside it, at the newest tuple. Last the files of `make 100000` are played on four processors, of which the machine lends one, two and four, and verified.
# The gate doesn't run it.
# Usage: tests/stress.sh [COUNT [PROGRAM]]: so many plays of each of the 60 kinds, 1000 where nothing is said.
set -euo pipefail
top=$(cd "$(dirname "$0")/.." && pwd)
count=${1:-1000}
program=$(readlink -f "${2:-$top/crates/cyber/out/cyber}")
[ -x "$program" ] || { echo "tests/stress.sh: no program at $program" >&2; exit 1; }
work=$(mktemp -d)
cd "$work"

# The form of a trace of version V, and that it has the numbers of the line `done`: P played, S shadowed, C calls and T messages.
cat >trace.awk <<'P'
function fail(why) { print "trace line " NR ": " why; failed = 1; exit 1 }
NR == 1 { if ($0 != "cyber-trace " V) fail("no head"); next }
NR == 2 { if ($0 != "played " P " shadowed " S) fail("not " P " and " S); next }
/^component "[^"]*"( overflow OLDEST)?$/ { if (place == 1 || tapes || NF != 2 * V) fail("a component"); place = 1; next }
/^roles (-|[0-3]+)$/ { if (place != 1) fail("roles"); place = 2; next }
/^call [0-9]+\/[0-9]+( [0-9]+)+ (-|[0-9]+@[0-9]+(=-?[0-9]+)?)$/ {
  if (place != 2) fail("a call")
  calls++
  next
}
/^end (DATA_WAIT|FINISHED) next [0-9]+$/ { if (place != 2) fail("an end"); place = 3; next }
/^tape "[^"]*" [0-9]+$/ { if (place != 3) fail("a message"); tapes++; next }
{ fail("no line of a trace") }
END {
  if (failed) exit 1
  if (calls != C || tapes != T) { print calls " calls and " tapes " messages"; exit 1 }
}
P

# A scheduler file: one context with so many processors, or the components pinned to so many in turn.
classic() { # how many
  echo "scheduler_conf { classic_conf { groups { name: \"g\" processor_num: $1 } } }"
}
pinned() { # how many, and the components
  local processors=$1 number=0 name
  shift
  echo "scheduler_conf { policy: \"choreography\" choreography_conf { choreography_processor_num: $processors"
  for name in "$@"; do
    echo "tasks { name: \"$name\" processor: $((number % processors)) }"
    number=$((number + 1))
  done
  echo '} }'
}

# Whether `verify` finds the files of a play to be those of a lawful run, and prints the numbers that the play printed.
is_lawful() { # the line of the play, and the words of the play but for the scheduler
  local line=$1
  shift
  (cd "$top" && exec "$program" verify "$@" --out "$work/out.record" --trace "$work/out.trace") >verified 2>&1
  [ "$(cat verified)" = "lawful: ${line#done: }" ] || { echo "verify: $(cat verified)"; return 1; }
}

# One play, and all that is to be seen of it.
looks_well() { # what `check` prints of the components, how many messages are played, and the words, of which the third pair is `--sched`
  local check=$1 played=$2 line counts info version=1
  shift 2
  rm -f out.record out.trace
  (cd "$top" && exec timeout 60 "$program" play "$@" --out "$work/out.record" --trace "$work/out.trace") >out 2>err ||
    { echo "status $?"; return 1; }
  line=$(cat out)
  [[ $line =~ ^done:\ played\ $played,\ shadowed\ 0,\ calls\ ([0-9]+),\ written\ ([0-9]+)$ ]] || { echo "$line"; return 1; }
  counts=("${BASH_REMATCH[@]}")
  info=$("$program" info out.record) || { echo "info: status $?"; return 1; }
  case $info in *differs*) echo "info: $info"; return 1 ;; esac
  case $info in *" complete yes "*"messages ${counts[2]}"$'\n'*) ;; *) echo "info: $info"; return 1 ;; esac
  if grep -q ' overflow OLDEST$' "$check"; then version=2; fi
  awk -v V="$version" -v P="$played" -v S=0 -v C="${counts[1]}" -v T="${counts[2]}" -f trace.awk out.trace || return 1
  python3 "$top/tests/fetches.py" out.trace "$check" || return 1
  is_lawful "$line" "${@:1:4}" "${@:7}" || return 1
  calls=${counts[1]}
}

# One play with a stop, and how many calls of the stopped component have a message from behind it: none or one.
obeys_well() { # what `check` prints of the components, the stop, how many messages are played, and the words
  local check=$1 stop=$2
  shift 2
  looks_well "$check" "$@" --stop "$stop" || return 1
  python3 "$top/tests/obeys.py" out.trace out.record "$check" "$stop" >obeyed || { cat obeyed; return 1; }
  late=$((late + $(cat obeyed)))
}

# So many plays of one kind.
plays() { # its name, and the function that makes one play, with its words
  local name=$1 time least= most=0 late=0 why
  shift
  for ((time = 1; time <= count; time++)); do
    calls=0
    "$@" >why || { echo "$name, play $time: $(head -c 300 why err); its files stay in $work"; exit 1; }
    if [ -z "$least" ] || [ "$calls" -lt "$least" ]; then least=$calls; fi
    if [ "$calls" -gt "$most" ]; then most=$calls; fi
  done
  echo "$name: $count plays, $least to $most calls$([ "$1" = looks_well ] || echo ", a late one in $late")"
}

# So many plays without a stop, and as many with one.
plays_both() { # their name, the DAG file, the stop, how many messages are played, and the record
  local name=$1 dag=$2 stop=$3 played=$4 words=(--dag "$2" --record "$5" --sched "$work/sched")
  (cd "$top" && exec "$program" check --dag "$dag") >check
  plays "$name" looks_well check "$played" "${words[@]}"
  plays "$name, $stop" obeys_well check "$stop" "$played" "${words[@]}"
}

# The same of a DAG file, and of its copy whose components go on at the oldest tuple.
plays_all() { # their name, the DAG file, the copy, the stop, how many messages are played, and the record
  local name=$1 dag=$2 oldest=$3
  shift 3
  plays_both "$name" "$dag" "$@"
  plays_both "$name, oldest" "$oldest" "$@"
}

# Copies a DAG file and its component files to a folder, so that each component keeps two tuples and goes on at the oldest.
copy_dag() { # the file, and the folder
  local conf folder=$work/$2 queue='pending_queue_size: 2'
  mkdir "$folder"
  sed "s,\"[^\"]*/\([^\"/]*\.conf\)\",\"$folder/\1\",; s/pending_queue_size: [0-9]*//; s/channel: \"[^\"]*\"/& $queue/" "$1" >"$folder/dag"
  for conf in "${1%/*}"/*.conf; do
    { cat "$conf" && echo 'on_overflow: OLDEST'; } >"$folder/$(basename "$conf")"
  done
}

# Plays the files of `make 100000` where the machine has so many processors for it.
plays_many() { # how many
  local line words=(--dag many.dag --record many.record)
  line=$(timeout 600 taskset -c "0-$(($1 - 1))" "$program" play "${words[@]}" --sched sched --out out.record --trace out.trace) ||
    { echo "many, $1 lent: status $?; the files stay in $work"; exit 1; }
  is_lawful "$line" "${words[@]/#many/$work/many}" || { echo "many, $1 lent: its files stay in $work"; exit 1; }
  echo "many, $1 lent: $line"
}

mkdir made
"$program" make 3000 "$work/made/made" >/dev/null
copy_dag "$work/made/made.dag" made.oldest
copy_dag "$top/examples/drive/drive.dag" drive.oldest
made_dags=("$work/made/made.dag" "$work/made.oldest/dag")
drive_dags=("$top/examples/drive/drive.dag" "$work/drive.oldest/dag")
made=(3000 "$work/made/made.record")
drive=(3205 "$top/examples/drive/drive.rec")
beats=("$top/examples/drive/heartbeat.dag" heartbeat@1700000010000000000 3224 "$top/examples/drive/drive.rec")
made_stops=([1]=adder [2]=band [4]=late)
drive_stops=([1]=margin [2]=late [4]=smooth)
for processors in 1 2 4; do
  made_stop=${made_stops[processors]}@1500000000
  drive_stop=${drive_stops[processors]}@1700000010000000000
  classic "$processors" >sched
  plays_all "made, $processors sharing" "${made_dags[@]}" "$made_stop" "${made[@]}"
  plays_all "drive, $processors sharing" "${drive_dags[@]}" "$drive_stop" "${drive[@]}"
  plays_both "heartbeat, $processors sharing" "${beats[@]}"
  pinned "$processors" adder band last8 late >sched
  plays_all "made, $processors pinned" "${made_dags[@]}" "$made_stop" "${made[@]}"
  pinned "$processors" smooth margin limit late frames >sched
  plays_all "drive, $processors pinned" "${drive_dags[@]}" "$drive_stop" "${drive[@]}"
  pinned "$processors" heartbeat sampled >sched
  plays_both "heartbeat, $processors pinned" "${beats[@]}"
done
# The DAG file has the names of its component files as `make` was given them.
"$program" make 100000 "$work/many" >/dev/null
classic 4 >sched
for processors in 1 2 4; do
  plays_many "$processors"
done
cd /
rm -rf "$work"
