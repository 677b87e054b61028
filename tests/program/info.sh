# shellcheck shell=bash disable=SC2154
# A part of tests/program.sh, which reads it: `info`.

tells_of_the_drive() {
  begin 'tells what the record of a drive is'
  (cd "$top" && exec "$program" info examples/drive/drive.rec) >out 2>err
  status=$?
  prints "$(sed -n '/^    file examples.drive.drive.rec/,/^    channel "\/camera/s/^    //p' "$top/examples/README.md")"
}

tells_what_was_written() {
  begin 'tells what a written record is'
  given one.rec
  run pass in.rec out.rec trace /in /out
  run info out.rec
  prints 'file out.rec bytes 2271
version 1.0 complete yes compress 0
channels 2 chunks 1 messages 2
time 100 to 100
index present entries 4
channel "/in" messages 1 type ""
channel "/out" messages 1 type ""'
}

tells_of_the_drive
tells_what_was_written
tells_no_record 'an empty file' 1 'not a record' ': >in.rec'
tells_no_record 'a text' 1 'not a record' 'echo no record >in.rec'
tells_no_record 'a record that is cut off' 1 'at 2113: Cut' 'truncate -s 2150 in.rec'
tells_no_record 'a section that is too long' 5 'at 2064: TooLong 536870913' \
  "truncate -s 2064 in.rec && printf '\\2\\0\\0\\0\\0\\0\\0\\0\\1\\0\\0\\40\\0\\0\\0\\0' >>in.rec"
tells_no_record 'a file that is too long' 5 'limit FileTooLarge passed: 2147483649' 'truncate -s 2147483649 in.rec'
tells_no_record 'a record that is not there' 3 'the store failed' 'rm in.rec'
tells_no_record 'a folder' 3 'the store failed' 'rm in.rec && mkdir in.rec'
