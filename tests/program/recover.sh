# A part of tests/program.sh, which reads it: `recover` and `split`. What they must write is worked out by tests/parted.py.

# Makes what a command must write for a file of the test's folder, in the folder `want`.
parted() { # the command, the file, and the options
  mkdir -p want
  python3 "$top/tests/parted.py" want/rec want/line "$@"
}

# Makes the record that `pass` writes for a record of `examples/`, as `in.rec` in `files`, and no other file there.
passed_on() { # the name of the record
  given "$1"
  mv want/rec files/in.rec
}

# Recovers what a command makes of a record that was written, and compares the line and the record.
recovers() { # what, the record of `examples/`, the command, the line and the bytes
  begin "recovers $1"
  passed_on "$2"
  (cd files && eval "$3")
  cp files/in.rec before
  parted recover files/in.rec
  run recover in.rec out.rec
  ends 0 "$4" ''
  [ "$4" = "$(cat want/line)" ] && [ "$5" = "$(stat -c %s files/out.rec)" ]
  count $? "$name: $(cat want/line) was to be told, and $(stat -c %s files/out.rec) bytes are there"
  holds files/out.rec want/rec
  holds files/in.rec before
}

# Writes over the first bytes of the header's body, of which nothing but a compression is asked.
with_header() { # the bytes, as printf takes them
  echo "printf '$1' | dd of=in.rec bs=1 seek=16 conv=notrunc status=none"
}

# Neither a file that was there nor one that was not is touched.
refuses_to_recover() { # what, the status, the line behind the file's name, and a command that makes the file
  begin "refuses to recover $1"
  passed_on one.rec
  (cd files && eval "$4")
  run recover in.rec out.rec
  ends "$2" '' "cyber: in.rec: $3"
  lacks files/out.rec
  echo old | tee files/out.rec >old
  run recover in.rec out.rec
  ends "$2" '' "cyber: in.rec: $3"
  holds files/out.rec old
}

recovers_all_fronts() { # of what, the record, and the step
  begin "recovers all fronts of $1"
  python3 "$top/tests/recovers.py" "$program" "$2" "$3" >report
  count $? "$name: $(head -n 1 report)"
}

# A play that may write no more bytes leaves a record whose header counts nothing. What is recovered of it are the first messages of the tape,
# chunk by chunk, and they can be played again. A chunk has the messages of twenty seconds.
recovers_a_play_that_broke_off() { # how many kilobytes it may write
  begin "recovers a play that wrote $1 KB"
  one_component PassComponent "$READS_A" 'out: "/o"'
  (cd files && eval "$(write_record '[(b"/a", 8_000_000_000 * k, content_of(k)) for k in range(1000)]' '{}')")
  (trap '' XFSZ && cd files && ulimit -f "$1" && exec "$program" play --serial --dag d.dag --record in.rec --out cut.rec \
    --trace trace) >out 2>err
  status=$?
  ends 3 '' 'cyber: cut.rec: the store failed'
  is_incomplete files/cut.rec
  parted recover files/cut.rec
  run recover cut.rec whole.rec
  ends 0 "$(cat want/line)" ''
  holds files/whole.rec want/rec
  (cd files && python3 "$top/tests/replay.py" ../tape.rec ../trace ../line --dag d.dag --record in.rec)
  begins_with tape.rec files/whole.rec
  (cd files && python3 "$top/tests/replay.py" ../again.rec ../trace ../line --dag d.dag --record whole.rec)
  run play --serial --dag d.dag --record whole.rec --out out.rec --trace trace
  ends 0 "$(cat line)" ''
  holds files/out.rec again.rec
}

# Looks that the messages of a record are the first ones of another, and that there are some.
begins_with() { # the other, and the record
  PYTHONPATH="$top/tools" python3 - "$@" <<'P'
import sys
from record import messages_of
whole, front = (messages_of(open(it, "rb").read()) for it in sys.argv[1:])
sys.exit(not front or front != whole[: len(front)])
P
  count $? "$name: $2 doesn't begin as $1"
}

# Splits a record, and compares the line and the record.
splits() { # what it shows, the record, the line, and the options
  begin "splits $1"
  mkdir files
  cp "$2" files/in.rec
  parted split files/in.rec "${@:4}"
  run split in.rec out.rec "${@:4}"
  ends 0 "$3" ''
  [ "$3" = "$(cat want/line)" ]
  count $? "$name: $(cat want/line) was to be told"
  holds files/out.rec want/rec
  holds files/in.rec "$2"
}

refuses_to_split() { # what, the status, the line behind the file's name, and a command that makes the file
  begin "refuses to split $1"
  passed_on one.rec
  (cd files && eval "$4")
  run split in.rec out.rec --drop /in
  ends "$2" '' "cyber: in.rec: $3"
  lacks files/out.rec
}

# Splits a record by a channel and by its times, and what comes of it once more.
splits_a_split() {
  begin 'splits a split'
  cp "$top/examples/drive/drive.rec" whole.rec
  mkdir files
  parted split whole.rec --channels /wheel/speed,/map/limit
  cp want/rec files/in.rec
  parted split files/in.rec --begin 1700000005000000000 --drop /wheel/speed
  cp whole.rec files/
  run split whole.rec first.rec --channels /wheel/speed,/map/limit
  holds files/first.rec files/in.rec
  run split first.rec out.rec --drop=/wheel/speed --begin 1700000005000000000
  ends 0 "$(cat want/line)" ''
  holds files/out.rec want/rec
}

# Records to recover and to split, in the folder of all tests: those of a pass over one message and over none, and that of a drive.
makes_records() {
  begin 'makes records to recover and to split'
  given one.rec
  run pass in.rec one.rec trace /in /out
  truncate -s 2064 files/in.rec
  run pass in.rec none.rec trace /in /out
  ends 0 'done: played 0, shadowed 0, calls 0, written 0' ''
  local here=$PWD
  (cd "$top" && exec "$program" play --serial "${drive[@]}" --out "$here/files/drive.rec" --trace "$here/trace") >out 2>err
  status=$?
  ends 0 'done: played 3205, shadowed 0, calls 2370, written 5573' ''
  made=$here/files
}

# Where the file that is written can't be made or filled.
writes_nowhere() { # the words, what befalls the file, its name, and a command that does it
  begin "names the file that '$1' can't write: $2"
  passed_on one.rec
  (cd files && eval "$4")
  # shellcheck disable=SC2086
  run $1 in.rec "$3"
  ends 3 '' "cyber: $3: the store failed"
}

INCOMPLETE="PYTHONPATH='$top/tools' python3 -c 'from record import *; import sys
fields = [1, 0, 0, LONGEST_TIME] + [0] * 9 + [LONGEST_BODY, 0]
header = section(0, b\"\".join(number(k + 1, n) for k, n in enumerate(fields))).ljust(HEADER_END, bytes(1))
file = open(\"in.rec\", \"r+b\"); file.write(header)'"

for words in recover split; do
  refuses_the_words "$words"
  refuses_the_words "$words" a
  refuses_the_words "$words" a a
  refuses_the_words "$words" a ''
  refuses_the_words "$words" '' b
  refuses_the_words "$words" a -b
  refuses_the_words "$words" a b c
  refuses_the_words "$words" -- a b
  refuses_the_words "$words" --in a --out b
  refuses_the_words "$words" a b --serial
  refuses_the_words "$words" a b --help
  refuses_the_words "$words" a $'\xff'
done
refuses_the_words recover a b --begin 5
refuses_the_words recover a b --channels /a
refuses_the_words split a a --begin 5
refuses_the_words split --begin 5 a b
refuses_the_words split --begin=5 a b
refuses_the_words split a --begin 5 b
refuses_the_words split a --begin=5 b
refuses_the_words split --channels a b
refuses_the_words split a b --begin 5 c
refuses_the_words split a b --begin
refuses_the_words split a b --begin=
refuses_the_words split a b --begin x
refuses_the_words split a b --end -1
refuses_the_words split a b --end 18446744073709551616
refuses_the_words split a b --begin 1 --begin 1
refuses_the_words split a b --channels /a,
refuses_the_words split a b --drop=,/a
refuses_the_words split a b --channels=
refuses_the_words split a b --stop p@1
refuses_the_words split a b --dag d

makes_records
recovers 'a whole record' one.rec : 'done: messages 2, dropped 0' 2271
recovers 'a record without its index, whose header counts nothing' one.rec "truncate -s 2182 in.rec; $INCOMPLETE" \
  'done: messages 2, dropped 0' 2271
recovers 'a record that ends inside a chunk' one.rec 'truncate -s 2159 in.rec' 'done: messages 0, dropped 20' 2080
recovers 'a record that ends inside the head of its index' one.rec 'truncate -s 2190 in.rec' 'done: messages 2, dropped 8' 2271
recovers 'a record whose index is cut' one.rec 'truncate -s 2200 in.rec' 'done: messages 2, dropped 0' 2271
recovers 'a header alone' one.rec 'truncate -s 2064 in.rec' 'done: messages 0, dropped 0' 2080
recovers 'a record with a header that cannot be read' one.rec "$(with_header '\x07\x07\x07')" 'done: messages 2, dropped 0' 2271
recovers 'a record whose chunk has a message that cannot be read' one.rec \
  "printf '\\x07' | dd of=in.rec bs=1 seek=2157 conv=notrunc status=none" 'done: messages 0, dropped 132' 2080
recovers 'a record with a section of no known kind' one.rec \
  "printf '\\x09' | dd of=in.rec bs=1 seek=2089 conv=notrunc status=none" 'done: messages 0, dropped 182' 2080
recovers 'a longer record' thousand.rec 'truncate -s -50 in.rec' 'done: messages 2000, dropped 0' 38583
recovers_all_fronts 'a record of one chunk' "$made/one.rec" 1
recovers_all_fronts 'a record of a drive' "$top/examples/drive/drive.rec" 997
recovers_all_fronts 'what a drive writes' "$made/drive.rec" 9973
for size in 4 9 40; do
  recovers_a_play_that_broke_off "$size"
done

refuses_to_recover 'an empty file' 1 'not a record' ': >in.rec'
refuses_to_recover 'a file of 15 bytes' 1 'not a record' 'truncate -s 15 in.rec'
refuses_to_recover 'a text' 1 'not a record' 'echo this is no record >in.rec'
refuses_to_recover 'a file of 16 bytes' 1 'at 0: Cut' 'truncate -s 16 in.rec'
refuses_to_recover 'a file of 2,063 bytes' 1 'at 0: Cut' 'truncate -s 2063 in.rec'
refuses_to_recover 'a header of a size that none has' 1 'at 0: Size 2049' \
  "printf '\\x01\\x08' | dd of=in.rec bs=1 seek=8 conv=notrunc status=none"
refuses_to_recover 'a record of compressed chunks' 1 'compressed chunks of kind 1' "$(with_header '\x08\x01\x10\x00\x18\x01')"
refuses_to_recover 'a file that is too long' 5 'limit FileTooLarge passed: 2147483649' 'truncate -s 2147483649 in.rec'
refuses_to_recover 'more channels than a record may have' 5 'limit TooManyChannels passed: 1025' \
  "$(write_record '[(b"/%d" % k, 1, number(1, 2)) for k in range(1025)]' '{}')"
refuses_to_recover 'a record that is not there' 3 'the store failed' 'rm in.rec'
refuses_to_recover 'a folder' 3 'the store failed' 'rm in.rec; mkdir in.rec'

DRIVE_REC=$top/examples/drive/drive.rec
splits 'by a channel' "$made/one.rec" 'done: messages 1 of 2' --channels /out
splits 'by no option' "$DRIVE_REC" 'done: messages 3205 of 3205'
splits 'by channels' "$DRIVE_REC" 'done: messages 205 of 3205' --channels /map/limit,/camera/frame
splits 'by channels that are dropped' "$DRIVE_REC" 'done: messages 205 of 3205' --drop=/imu/yaw,/wheel/speed
splits 'by a channel that is dropped, too' "$DRIVE_REC" 'done: messages 5 of 3205' --channels /map/limit,/imu/yaw --drop /imu/yaw
splits 'by its last time' "$DRIVE_REC" 'done: messages 1 of 3205' --begin 1700000019990094318 --end 1700000019990094318
splits 'to nothing by a channel that is not there' "$DRIVE_REC" 'done: messages 0 of 3205' --channels /none
splits 'to nothing by times that nothing has' "$DRIVE_REC" 'done: messages 0 of 3205' --begin 2 --end 1
splits 'a record of no message' "$made/none.rec" 'done: messages 0 of 0' --drop /in
splits_a_split

refuses_to_split 'a record that is cut' 1 'at 2139: Cut' 'truncate -s 2159 in.rec'
refuses_to_split 'a record with a header that cannot be read' 1 'at 16: Wire' "$(with_header '\x07\x07\x07')"
refuses_to_split 'a record of compressed chunks' 1 'compressed chunks of kind 1' "$(with_header '\x08\x01\x10\x00\x18\x01')"
refuses_to_split 'a record that is not there' 3 'the store failed' 'rm in.rec'

for words in recover split; do
  writes_nowhere "$words" 'a folder' out.rec 'mkdir out.rec'
  writes_nowhere "$words" 'in a folder that is not there' missing/out.rec ''
  writes_nowhere "$words" 'a device that is full' /dev/full ''
done
