# shellcheck shell=bash disable=SC2154
# A part of tests/program.sh, which reads it: plays on threads.

plays_on_threads() { # how often
  begin "plays on threads, $1 times"
  local here=$PWD time
  for ((time = 0; time < $1; time++)); do
    rm -f out.rec out.trace
    (cd "$top" && exec timeout 60 "$program" play --dag examples/drive/drive.dag --record examples/drive/drive.rec \
      --sched examples/drive/drive.sched --out "$here/out.rec" --trace "$here/out.trace") >out 2>err || break
    has_played_the_drive out.rec out.trace || break
  done
  [ "$time" -eq "$1" ]
  count $? "$name: the run $time was not as expected: $(head -c 200 out err verified)"
}

# Plays the drive on threads with a stop, and looks at the calls of the stopped component and at the ends of all.
obeys_on_threads() { # how often, and the stop
  begin "obeys the stop $2 on threads, $1 times"
  local here=$PWD time
  (cd "$top" && exec "$program" check --dag examples/drive/drive.dag) >wiring
  for ((time = 0; time < $1; time++)); do
    rm -f out.rec out.trace
    : >obeyed
    (cd "$top" && exec timeout 60 "$program" play "${drive[@]}" --sched examples/drive/drive.sched --stop "$2" \
      --out "$here/out.rec" --trace "$here/out.trace") >out 2>err || break
    has_played_the_drive out.rec out.trace "--stop=$2" || break
    python3 "$top/tests/obeys.py" out.trace out.rec wiring "$2" >obeyed || break
  done
  [ "$time" -eq "$1" ]
  count $? "$name: the run $time was not as expected: $(head -c 200 out err verified obeyed)"
}

# One message leaves no choice: threads write what one thread writes.
plays_one_message_alike() {
  begin 'plays one message on threads as on one'
  mkdir files
  cp "$top/examples/pass/one.rec" files/in.rec
  printf 'module_config { components { class_name: "PassComponent" config { name: "p" config_file_path: "p.conf" %s } } }\n' \
    'readers { channel: "/in" }' >files/d.dag
  echo 'out: "/out"' >files/p.conf
  run play --dag d.dag --record in.rec --out a.rec --trace a.trace
  is_lawful files a.rec a.trace --dag d.dag --record in.rec
  cp out line
  run play --serial --dag d.dag --record in.rec --out b.rec --trace b.trace
  ends 0 "$(cat line)" ''
  holds files/a.rec files/b.rec
  holds files/a.trace files/b.trace
}

plays_on_threads 25
obeys_on_threads 10 margin@1700000010000000000
obeys_on_threads 10 late@1700000005010000000
plays_one_message_alike
