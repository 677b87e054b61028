# shellcheck shell=bash disable=SC2154
# A part of tests/program.sh, which reads it: records of very many sections and messages.

# Runs the program in the folder `files` as `run` does, and sets `used` to the milliseconds of processors and the KiB of memory that it took.
weigh() { # the words
  mkdir -p files
  used=$(python3 - "$program" "$@" <<'P'
import os, subprocess, sys
with open("out", "wb") as out, open("err", "wb") as err:
    child = subprocess.Popen(sys.argv[1:], cwd="files", stdout=out, stderr=err)
_, status, used = os.wait4(child.pid, 0)
print(os.waitstatus_to_exitcode(status), int(1000 * (used.ru_utime + used.ru_stime)), used.ru_maxrss)
P
  )
  status=${used%% *}
  used=${used#* }
}

# Compares what the last run took with a limit: seconds of processors, and MB above the memory that a small record takes.
takes_at_most() { # seconds, MB
  [ "${used% *}" -le $((1000 * $1)) ]
  count $? "$name: it took ${used% *} ms, more than $1 s"
  [ "${used#* }" -le $((small + 1000 * $2)) ]
  count $? "$name: it took ${used#* } KiB, more than $2 MB above $small KiB"
}

# The lines that `info` prints of a record that is still being written, without a channel.
empty_info() { # its bytes, its chunks
  printf 'file in.rec bytes %s\nversion 0.0 complete no compress 0\nchannels 0 chunks %s messages 0\ntime 0 to 0\nindex absent\n' "$1" "$2"
}

# A section has 16 bytes in the file, and 24 are kept of it.
reads_a_million_sections() {
  begin 'reads a million sections that have no byte of their own'
  mkdir files
  python3 "$top/tests/large.py" files/in.rec sections 1 1
  weigh info in.rec
  small=${used#* }
  local type chunks
  for type in 1 2; do
    chunks=$((type == 2 ? 1000000 : 0))
    python3 "$top/tests/large.py" files/in.rec sections "$type" 1000000
    weigh info in.rec
    [ "$status" -eq 0 ]
    count $? "$name: info of type $type ended with $status"
    empty_info 16002064 "$chunks" | cmp -s - out
    count $? "$name: info of type $type prints '$(head -c 300 out)'"
    takes_at_most 2 64
    weigh recover in.rec out.rec
    [ "$status" -eq 0 ]
    count $? "$name: recover of type $type ended with $status"
    takes_at_most 2 64
    [ "$(stat -c %s files/out.rec)" -eq 2080 ]
    count $? "$name: an empty record has $(stat -c %s files/out.rec) bytes"
  done
  rm -r files
}

# Two chunks are decoded side by side, and the last one, which is small, in its turn.
reads_more_messages_than_are_played() {
  begin 'reads more messages than may be played'
  mkdir files
  python3 "$top/tests/large.py" files/in.rec messages /a 3000000 1 /b 3000000 2 /a 1 3
  run info in.rec
  [ "$status" -eq 0 ]
  count $? "$name: status $status"
  [ "$(sed -n '3,4p' out)" = 'channels 2 chunks 3 messages 6000001
time 1 to 3' ]
  count $? "$name: info prints '$(head -c 300 out)'"
  rm -r files
}

reads_more_chunks_than_16_bits_count() {
  begin 'reads more chunks than 65,535'
  mkdir files
  python3 "$top/tests/large.py" files/in.rec chunks 70000
  run info in.rec
  [ "$status" -eq 0 ]
  count $? "$name: status $status"
  [ "$(sed -n 3p out)" = 'channels 1 chunks 70000 messages 70000' ]
  count $? "$name: info prints '$(head -c 300 out)'"
  rm -r files
}

reads_a_million_sections
reads_more_messages_than_are_played
reads_more_chunks_than_16_bits_count
