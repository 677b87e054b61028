# shellcheck shell=bash disable=SC2154
# A part of tests/program.sh, which reads it: plays of the drive on threads, as many as are asked for, and fewer. `drive` has its files.

# What a serial play makes of the drive, with the same scheduler file and so in the same order.
SERIAL_CALLS=2370

# A play on threads may have some calls less, by the fetch rule: a component that is filled just while it fetches in vain counts as having
# nothing to do, so the player may play the next message before it fetched, and its buffer keeps one. Where the player waits for nobody, or
# where nobody serves some components, 900 to 2,300 calls are missing.
LEAST_CALLS=2300

# Writes scheduler files: so many processors that share one context; and so many with components of their own, and a pool for the others.
sharing() { # how many
  echo "scheduler_conf { classic_conf { groups { name: \"g\" processor_num: $1 } } }" >"sharing$1"
}
pinned() { # its name, the processors and those of the pool, and the components in turn
  local file=$1 processors=$2 pool=$3 number=0 component
  shift 3
  {
    echo "scheduler_conf { policy: \"choreography\" choreography_conf {"
    echo "choreography_processor_num: $processors pool_processor_num: $pool"
    for component in "$@"; do
      echo "tasks { name: \"$component\" processor: $((number % processors)) }"
      number=$((number + 1))
    done
    echo '} }'
  } >"$file"
}

# Plays the drive, where so many threads may run at once, or any number. What is left behind is `out.rec`, `out.trace`, `out`, `err`, and how
# many milliseconds it took, in `took`.
play_within() { # how many threads, or none, the scheduler file, and further words
  local limit=$1 sched=$2 before
  local words=(play "${drive[@]}" --sched "$sched" --out out.rec --trace out.trace "${@:3}")
  local under=()
  [ -z "$limit" ] || under=("${as_other[@]}" prlimit --nproc="$((limit + own_threads))")
  rm -f files/out.rec files/out.trace
  before=${EPOCHREALTIME/./}
  (cd files && exec timeout 60 "${under[@]}" ../program "${words[@]}") >out 2>err
  status=$?
  took=$(((${EPOCHREALTIME/./} - before) / 1000))
}

# How many calls the last play made: 0 where it is not that of a lawful run, or where its files don't have the numbers of its line.
lawful_calls() { # further words
  if [ "$status" -eq 0 ] && has_played_the_drive files/out.rec files/out.trace "$@"; then
    sed 's/.* calls \([0-9]*\),.*/\1/' out
  else
    echo 0
  fi
}

# The folder of a test, in which another user may write: the examples and the program.
begin_for_others() { # what it shows
  begin "$1"
  mkdir files
  cp -r "$top/examples" files/
  cp "$program" program
  chmod 711 "$work" .
  chmod 755 program
}

# Who plays where threads are few: root as a user of its own, who has no other threads, and any other user as itself, whose other threads
# count, too. Whether it may.
finds_another() {
  own_threads=0
  as_other=(setpriv --reuid=60000 --regid=60000 --clear-groups)
  if [ "$(id -u)" -eq 0 ]; then
    chown -R 60000:60000 files
    return
  fi
  as_other=()
  own_threads=$(ps -L -U "$(id -u)" -o lwp= | wc -l)
  if ! prlimit --nproc="$((own_threads + 20))" true 2>/dev/null; then
    leave_out 'this user may not set its limit of threads' "$name"
    return 1
  fi
}

# The middle one of some numbers.
middle() { # the numbers
  printf '%s\n' "$@" | sort -n | sed -n "$((($# + 1) / 2))p"
}

# Plays the drive where 1 to 10 threads may run at once: each context is served, by a processor or by the player's thread, and nobody waits
# for processors that don't come. On one thread the run is the serial one.
plays_where_threads_are_few() { # how many processors, how the scheduler file is made, and its name
  local sched=$3 limit calls alone times=()
  begin_for_others "plays where few threads may run at once: $1"
  (cd files && eval "$2")
  finds_another || return
  play_within '' "$sched" --serial
  alone=$took
  for limit in 1 2 3 4 5 6 7 8 9 10; do
    play_within "$limit" "$sched"
    times+=("$took")
    calls=$(lawful_calls)
    [ "$calls" -ge "$LEAST_CALLS" ] && [ "$calls" -le "$SERIAL_CALLS" ]
    count $? "$name: $calls calls with a limit of $limit: $(head -c 200 out err verified 2>&1)"
    if [ "$limit" -eq 1 ] && [ "$own_threads" -eq 0 ]; then
      is_as_the_serial_one "$sched"
    fi
  done
  [ "$(middle "${times[@]}")" -lt $((3 * alone + 600)) ]
  count $? "$name: the plays took ${times[*]} ms, and a serial one $alone"
}

# Compares the files of the last play, and its line, with those of a serial one.
is_as_the_serial_one() { # the scheduler file, and further words
  (cd files && exec ../program play --serial "${drive[@]}" --sched "$1" --out serial.rec --trace serial.trace "${@:2}") >line 2>&1
  holds out line
  holds files/out.rec files/serial.rec
  holds files/out.trace files/serial.trace
}

stops_on_one_thread() { # the stop
  begin_for_others "obeys the stop $1 on one thread"
  finds_another || return
  play_within 1 examples/drive/drive.sched --stop "$1"
  [ "$(lawful_calls "--stop=$1")" -gt 0 ]
  count $? "$name: $(head -c 200 out err verified 2>&1)"
  [ "$own_threads" -ne 0 ] || is_as_the_serial_one examples/drive/drive.sched --stop "$1"
}

# Plays the drive on threads as they are asked for, several times: the player keeps the processors' pace.
plays_with_ample_threads() { # how often, the scheduler file, and how it is made
  local time calls
  begin_for_others "plays on as many threads as asked for, $1 times: $2"
  (cd files && eval "$3")
  for ((time = 0; time < $1; time++)); do
    play_within '' "$2"
    calls=$(lawful_calls)
    [ "$calls" -ge "$LEAST_CALLS" ] && [ "$calls" -le "$SERIAL_CALLS" ]
    count $? "$name: $calls calls: $(head -c 200 out err verified 2>&1)"
  done
}

plays_where_threads_are_few 'one processor' 'sharing 1' sharing1
plays_where_threads_are_few 'three processors' '' examples/drive/drive.sched
plays_where_threads_are_few 'eight processors' 'pinned eight 5 3 smooth margin limit late' eight
plays_where_threads_are_few 'four processors' 'pinned four 4 1 smooth margin limit late frames' four
for stop in margin@1700000010000000000 late@1700000005010000000 frames@0; do
  stops_on_one_thread "$stop"
done
plays_with_ample_threads 5 examples/drive/drive.sched ''
# More than the machine has, and as many as may be asked for. The last one of 64 has no thread, and in the second case it alone is for a
# component.
for processors in 5 33 64; do
  plays_with_ample_threads 2 "sharing$processors" "sharing $processors"
done
plays_with_ample_threads 2 last 'pinned last 63 1 smooth margin limit late'
