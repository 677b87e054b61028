# A part of tests/program.sh, which reads it: `merge`. What it must write is worked out by tests/parted.py.

# Writes a record of these messages, in Python, and the types and descriptions of channels.
makes() { # the file, the messages, and the forms
  mkdir -p "$work/inputs"
  (cd "$work/inputs" && PYTHONPATH="$top/tools" python3 -c "from record import *; import sys; sys.stdout.buffer.write(record($2, $3))" >"$1")
}

# Merges records, and compares the line and the record.
merges() { # what it shows, the records, and the line
  begin "merges $1"
  mv "$work/inputs" files
  mkdir -p want
  (cd files && python3 "$top/tests/parted.py" ../want/rec ../want/line merge "$2")
  run merge "$2" out.rec
  ends 0 "$3" ''
  [ "$3" = "$(cat want/line)" ]
  count $? "$name: $(cat want/line) was to be told"
  holds files/out.rec want/rec
}

# Neither a file that was there nor one that was not is touched.
refuses_to_merge() { # what, the status, the line, the records and the output
  begin "refuses to merge $1"
  mv "$work/inputs" files
  run merge "$4" "${5:-out.rec}"
  ends "$2" '' "$3"
  lacks files/out.rec
  [ -n "${5-}" ] || { echo old | tee files/out.rec >old && run merge "$4" out.rec && ends "$2" '' "$3" && holds files/out.rec old; }
}

# The messages of a record that is split by time and merged again are the same, in the order of time.
merges_what_was_split() {
  begin 'merges what was split'
  mkdir files
  cp "$top/examples/drive/drive.rec" files/whole.rec
  run split whole.rec front.rec --end 1700000009999999999
  run split whole.rec back.rec --begin 1700000010000000000
  run merge back.rec,front.rec out.rec
  ends 0 'done: messages 3205, records 2' ''
  PYTHONPATH="$top/tools" python3 - files/whole.rec files/out.rec <<'P'
import sys
from record import messages_of
whole, again = ([it[:3] for it in messages_of(open(name, "rb").read())] for name in sys.argv[1:])
sys.exit(again != sorted(whole, key=lambda it: it[1]))
P
  count $? "$name: the messages differ"
}

# The same by a program of its own, at random.
merges_at_random() { # how many rounds
  begin "merges at random, $1 rounds"
  python3 "$top/tests/merges.py" "$program" "$1" 20 >report
  count $? "$name: $(cat report)"
}

for words in 'merge' 'merge a' 'merge a a' 'merge a,b a' 'merge a,b b' 'merge a,,b c' 'merge ,a b' 'merge a, b' 'merge , b' 'merge a b c' \
  'merge a -b' 'merge -a b' 'merge -- a b' 'merge a b --serial' 'merge a b --begin 5' 'merge --list a --out b'; do
  # shellcheck disable=SC2086
  refuses_the_words $words
done
refuses_the_words merge '' b
refuses_the_words merge a ''
refuses_the_words merge a $'\xff'

makes a.rec '[(b"/a", 1, b"1"), (b"/b", 5, b"2"), (b"/a", 9, b"3")]' '{b"/a": (b"A", b"da")}'
makes b.rec '[(b"/c", 2, b"4"), (b"/a", 6, b"5")]' '{b"/a": (b"A", b""), b"/c": (b"C", b"")}'
merges 'two records that interleave' a.rec,b.rec 'done: messages 5, records 2'
makes a.rec '[(b"/a", 7, b"1"), (b"/a", 3, b"2"), (b"/a", 7, b"3")]' '{}'
makes b.rec '[(b"/b", 7, b"4"), (b"/b", 3, b"5")]' '{}'
merges 'equal times in the order of the list and then of the file' b.rec,a.rec 'done: messages 5, records 2'
makes a.rec '[(b"/a", 2, b"1"), (b"/a", 1, b"2")]' '{b"/a": (b"A", b"d")}'
merges 'a record that is named twice' a.rec,a.rec 'done: messages 4, records 2'
makes a.rec '[(b"/a", 2, b"1"), (b"/a", 1, b"2")]' '{b"/a": (b"A", b"d")}'
merges 'one record, which is sorted' a.rec 'done: messages 2, records 1'
makes a.rec '[(b"/a", 1, b"1")]' '{b"/a": (b"", b"d")}'
makes b.rec '[(b"/a", 2, b"2")]' '{b"/a": (b"B", b"")}'
makes c.rec '[(b"/a", 3, b"3")]' '{b"/a": (b"B", b"d")}'
merges 'a type and a description of two records' a.rec,b.rec,c.rec 'done: messages 3, records 3'
makes a.rec '[]' '{}'
makes b.rec '[(b"/a", 2, b"2")]' '{}'
merges 'a record of no message and one of one' a.rec,b.rec 'done: messages 1, records 2'
makes a.rec '[]' '{}'
merges 'no message' a.rec,a.rec 'done: messages 0, records 2'
makes a.rec '[(b"/%d" % k, k, b"") for k in range(600)]' '{}'
makes b.rec '[(b"/%d" % k, k, b"") for k in range(424, 1024)]' '{}'
merges 'as many channels as a record may have' a.rec,b.rec 'done: messages 1200, records 2'
merges_what_was_split
merges_at_random 60

makes a.rec '[(b"/a", 1, b"1"), (b"/b", 1, b"1")]' '{b"/a": (b"A", b"d"), b"/b": (b"B", b"d")}'
makes b.rec '[(b"/a", 2, b"2"), (b"/b", 2, b"2")]' '{b"/a": (b"A", b"e"), b"/b": (b"C", b"d")}'
refuses_to_merge 'types that differ, before descriptions' 1 'cyber: b.rec: TypesDiffer "/b"' a.rec,b.rec,none.rec
makes a.rec '[(b"/a", 1, b"1")]' '{b"/a": (b"A", b"d")}'
makes b.rec '[(b"/a", 2, b"2")]' '{b"/a": (b"A", b"e")}'
refuses_to_merge 'descriptions that differ' 1 'cyber: b.rec: DescriptionsDiffer "/a"' a.rec,b.rec,none.rec
makes a.rec '[(b"/%d" % k, k, b"") for k in range(600)]' '{}'
makes b.rec '[(b"/%d" % k, k, b"") for k in range(424, 1025)]' '{}'
refuses_to_merge 'more channels than a record may have' 5 'cyber: b.rec: limit TooManyChannels passed: 1025' a.rec,b.rec,none.rec
makes a.rec '[(b"/a", 1, b"1")]' '{}'
refuses_to_merge 'a record that is not there' 3 'cyber: none.rec: the store failed' a.rec,none.rec
makes a.rec '[(b"/a", 1, b"1")]' '{}'
echo text >"$work/inputs/b.rec"
refuses_to_merge 'a text' 1 'cyber: b.rec: not a record' a.rec,b.rec
makes a.rec '[(b"/a", 1, b"1")]' '{}'
refuses_to_merge 'into another spelling of an input' 1 'cyber: ./a.rec: is also a.rec' none.rec,a.rec ./a.rec
makes a.rec '[(b"/a", 1, b"1")]' '{}'
refuses_to_merge 'into standard output' 1 'cyber: /dev/stdout: is also /dev/stdout' a.rec /dev/stdout
