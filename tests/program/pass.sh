# shellcheck shell=bash disable=SC2154
# A part of tests/program.sh, which reads it: `pass`, the records that it plays and refuses, and files and streams that fail.

plays_a_record() { # its name, and how many bytes and lines are written for it
  begin "plays $1"
  given "$1"
  run pass in.rec out.rec trace /in /out
  ends 0 "$(cat want/line)" ''
  both_whole
  [ "$(stat -c %s files/out.rec) $(wc -l <files/trace)" = "$2 $3" ]
  count $? "$name: not $2 bytes and $3 lines"
}

# A name of 3,000 bytes for the copies makes them more than one chunk holds.
cuts_chunks() {
  begin 'cuts a long record into chunks'
  local copies header
  copies=/$(printf '%02999d' 0)
  mkdir files
  python3 "$top/bench/largest.py" files/in.rec >/dev/null
  wanted a "$copies"
  run pass in.rec out.rec trace a "$copies"
  ends 0 "$(cat want/line)" ''
  both_whole
  # In the header stand the index's place, the count of chunks and the count of channels, in this order.
  header=$(head -c 64 files/out.rec | od -An -v -tx1 | tr -d ' \n')
  [[ $header =~ 280030([89a-f].)*[0-7].38024002 ]]
  count $? "$name: the header doesn't count two chunks and two channels"
  rm -r files want
}

leaves_no_old_tail() {
  begin 'leaves nothing of a longer file'
  given two.rec
  head -c 100000 /dev/zero | tee files/out.rec >files/trace
  run pass in.rec out.rec trace /in /out
  ends 0 "$(cat want/line)" ''
  both_whole
}

refuses_a_record() { # what is wrong with it, the status, the line behind its name, and a command that writes it
  begin "refuses to pass on $1"
  given two.rec
  (cd files && eval "$4")
  echo old | tee files/out.rec files/trace >old
  run pass in.rec out.rec trace /in /out
  ends "$2" '' "cyber: in.rec: $3"
  holds files/out.rec old
  holds files/trace old
}

# Passes on a record that a command writes, and compares all three with what the rules give.
passes_on() { # what it is, the two channels, the line, and the command
  begin "passes on $1"
  given two.rec
  (cd files && eval "$5")
  wanted "$2" "$3"
  run pass in.rec out.rec trace "$2" "$3"
  ends 0 "$4" ''
  both_whole
}

names_the_record() { # what befalls it, and a command that does it
  begin "names $1"
  given two.rec
  (cd files && eval "$2")
  echo old | tee files/out.rec >old
  run pass in.rec out.rec trace /in /out
  ends 3 '' 'cyber: in.rec: the store failed'
  holds files/out.rec old
  lacks files/trace
}

names_the_out_file() { # what befalls it, its name, and a command that does it
  begin "names the out file: $1"
  given two.rec
  (cd files && eval "$3")
  run pass in.rec "$2" trace /in /out
  ends 3 '' "cyber: $2: the store failed"
  lacks files/trace
}

names_the_trace() { # what befalls it, its name, and a command that does it
  begin "names the trace: $1"
  given two.rec
  (cd files && eval "$3")
  run pass in.rec out.rec "$2" /in /out
  ends 3 '' "cyber: $2: the store failed"
  holds files/out.rec want/rec
}

tells_of_standard_output() { # what befalls it, and a redirection that does it
  begin "tells of a standard output that $1"
  given two.rec
  : >out
  (cd files && eval "exec \"\$program\" pass in.rec out.rec trace /in /out $2") 2>err
  status=$?
  ends 4 '' "$OUTPUT"
  both_whole
}

fails_without_standard_error() { # what befalls it, and a redirection that does it
  begin "fails with a standard error that $1"
  : >err
  mkdir files
  (cd files && eval "exec \"\$program\" pass $2") >out
  status=$?
  ends 4 '' ''
}

names_what_may_not_be_used() {
  begin 'names a record that may not be read'
  given two.rec
  chmod 000 files/in.rec
  as_nobody pass in.rec out.rec trace /in /out
  ends 3 '' 'cyber: in.rec: the store failed'
  begin 'names an out file that may not be written'
  given two.rec
  echo old | tee files/out.rec >old
  chmod 444 files/out.rec
  as_nobody pass in.rec out.rec trace /in /out
  ends 3 '' 'cyber: out.rec: the store failed'
  holds files/out.rec old
}

plays_a_record one.rec 2271 8
plays_a_record two.rec 2300 11
plays_a_record thousand.rec 38583 3005
cuts_chunks
leaves_no_old_tail

refuses_a_record 'an empty file' 1 'not a record' ': >in.rec'
refuses_a_record 'a text' 1 'not a record' 'echo no record >in.rec'
refuses_a_record 'a record that is cut off' 1 'at 2113: Cut' 'truncate -s 2150 in.rec'
refuses_a_record 'a file that is too long' 5 'limit FileTooLarge passed: 2147483649' 'truncate -s 2147483649 in.rec'
refuses_a_record 'more channels than have names' 5 'limit TooManyChannels passed: 1025' \
  "$(write_record '[(b"/%d" % k, 1, number(1, 2)) for k in range(1023)]' '{}')"
refuses_a_record 'more channels than a record may have' 5 'limit TooManyChannels passed: 1025' \
  "$(write_record '[(b"/%d" % k, 1, number(1, 2)) for k in range(1025)]' '{}')"

passes_on 'what a record without its index has' /in /out 'done: played 2, shadowed 0, calls 2, written 4' 'truncate -s 2172 in.rec'
passes_on 'a header alone' /in /out 'done: played 0, shadowed 0, calls 0, written 0' 'truncate -s 2064 in.rec'
passes_on 'a channel that no message has' /none /out 'done: played 2, shadowed 0, calls 0, written 2' ':'
passes_on 'messages whose times fall, contents that are no numbers, and a type' /in /out \
  'done: played 5, shadowed 0, calls 3, written 8' \
  "$(write_record '[(b"/in", 9, number(1, 2)), (b"/b", 9, b""), (b"/in", 3, b"\xff"), (b"/b", 1, b"x"), (b"/in", 3, b"")]' \
    '{b"/in": (b"T", b"D")}')"
passes_on 'a record that has messages on the channel it writes' /a /sum 'done: played 1, shadowed 1, calls 1, written 2' \
  "$(write_record '[(b"/a", 1, number(1, 10)), (b"/sum", 2, number(1, 18))]' '{}')"
passes_on 'as many channels as have names' /1 /1023 'done: played 1023, shadowed 0, calls 1, written 1024' \
  "$(write_record '[(b"/%d" % k, 1, number(1, 2)) for k in range(1023)]' '{}')"

names_the_record 'a record that is not there' 'rm in.rec'
names_the_record 'a folder as the record' 'rm in.rec && mkdir in.rec'
names_the_record 'a record in a folder that is a file' 'rm in.rec && ln -s out.rec/in in.rec'

names_the_out_file 'a folder' out.rec 'mkdir out.rec'
names_the_out_file 'in a folder that is not there' missing/out.rec ''
names_the_out_file 'a device that is full' /dev/full ''
names_the_trace 'a folder' trace 'mkdir trace'
names_the_trace 'in a folder that is not there' missing/trace ''
names_the_trace 'a device that is full' /dev/full ''
names_what_may_not_be_used

tells_of_standard_output 'is full' '>/dev/full'
tells_of_standard_output 'is closed' '>&-'
tells_of_standard_output 'cannot be written' '</dev/null >&0'
fails_without_standard_error 'is full' '2>/dev/full'
fails_without_standard_error 'is closed' '2>&-'
