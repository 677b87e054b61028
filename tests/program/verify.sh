# A part of tests/program.sh, which reads it: `verify`, over the files of a play and over what is made of them. What `verify` says of the
# other plays of tests/program.sh is looked at where they are made.

finds_it_lawful() { # what it is, a command that changes the files, and further words
  begin "finds $1 to be of a lawful run"
  of_a_pass
  (cd files && eval "$2")
  verifies 0 'lawful: played 1, shadowed 0, calls 1, written 2' '' "${PASS_FILES[@]}" "${@:3}"
}

refuses_to_verify() { # what, the status, the line behind `cyber: `, a command that changes the files, and further words
  begin "refuses to verify $1"
  of_a_pass
  (cd files && eval "$4")
  verifies "$2" '' "cyber: $3" "${PASS_FILES[@]}" "${@:5}"
}

refuses_words_of_verify() { # the words behind the four names
  refuses_the_words verify --dag d --record r --out o --trace t "$@"
}

# A component with a stop has ended; that has to be said of the words too. A stop that is raised before its call leaves it one.
looks_at_the_stop() {
  begin 'looks at a stop'
  one_component PassComponent "$READS_A" 'out: "/o"'
  (cd files && eval "$(write_record '[(b"/a", k, content_of(k)) for k in [1, 2, 3, 4]]' '{}')")
  run play --serial "${PASS_FILES[@]}" --stop p@2
  verifies 0 'lawful: played 4, shadowed 0, calls 2, written 6' '' "${PASS_FILES[@]}" --stop p@2
  verifies 0 'lawful: played 4, shadowed 0, calls 2, written 6' '' "${PASS_FILES[@]}" --stop=p@1
  verifies 1 '' 'cyber: trace: not a lawful run' "${PASS_FILES[@]}"
  verifies 1 '' 'cyber: trace: not a lawful run' "${PASS_FILES[@]}" --stop p@0
}

refuses_the_words verify
refuses_the_words verify --dag d --record r --out o
refuses_the_words verify --dag d --record r --out o --trace
for pair in 'd d o t' 'd r d t' 'd r o d' 'd r r t' 'd r o r' 'd r o o'; do
  # shellcheck disable=SC2086
  set -- $pair
  refuses_the_words verify --dag "$1" --record "$2" --out "$3" --trace "$4"
  refuses_the_words verify "--trace=$4" --out "$3" "--record=$2" --dag "$1"
done
refuses_words_of_verify --serial
refuses_words_of_verify --sched s
refuses_words_of_verify word
refuses_words_of_verify --plan p
refuses_words_of_verify --dag e
refuses_words_of_verify --channels
refuses_words_of_verify --channels /a,,/b
refuses_words_of_verify --drop ''
refuses_words_of_verify --begin 1x
refuses_words_of_verify --end 18446744073709551616
refuses_words_of_verify --stop p
refuses_words_of_verify --stop p@1 --stop p@2
refuses_words_of_verify --help

finds_it_lawful 'the first play of pass' ':'
finds_it_lawful 'one by options in other orders' ':' --end=100 --begin 0 --channels /x,/in --drop=/y
finds_it_lawful 'one with a stop behind all messages' ':' --stop pass@100
finds_it_lawful 'one in whose one call is late' ':' --stop pass@99
finds_it_lawful 'one in which the component ended after that' "sed -i 's/DATA_WAIT/FINISHED/' trace" --stop pass@99
looks_at_the_stop

NOT_LAWFUL='trace: not a lawful run'
refuses_to_verify 'an output before its cause' 1 "$NOT_LAWFUL" "sed -i '7{h;d};8G' trace"
refuses_to_verify 'what ended without a stop' 1 "$NOT_LAWFUL" "sed -i 's/DATA_WAIT/FINISHED/' trace"
refuses_to_verify 'a call on another message' 1 "$NOT_LAWFUL" "sed -i '5s,1/1 1,1/1 2,' trace"
refuses_to_verify 'a call with another value' 1 "$NOT_LAWFUL" "sed -i '5s/=7/=8/' trace"
refuses_to_verify 'a call without its value' 1 "$NOT_LAWFUL" "sed -i '5s/=7//' trace"
refuses_to_verify 'a next fetch that is none' 1 "$NOT_LAWFUL" "sed -i '6s/2/1/' trace"
refuses_to_verify 'no call' 1 "$NOT_LAWFUL" "sed -i '5d; 6s/2/0/; 8d' trace"
refuses_to_verify 'no tape' 1 "$NOT_LAWFUL" "sed -i '7,8d' trace"
refuses_to_verify 'no component' 1 "$NOT_LAWFUL" "sed -i '3,6d' trace"
refuses_to_verify 'another component' 1 "$NOT_LAWFUL" "sed -i '3s/pass/p/' trace"
refuses_to_verify 'another count' 1 "$NOT_LAWFUL" "sed -i '2s/0/1/' trace"
refuses_to_verify 'a role of no reader' 1 "$NOT_LAWFUL" "sed -i '4s/0/9/' trace"
refuses_to_verify 'a trace in a form that it has not' 1 "$NOT_LAWFUL" "sed -i '1s/1/2/; 3s/\$/ overflow NEWEST/' trace"
refuses_to_verify 'the trace of another play' 1 "$NOT_LAWFUL" ':' --begin 101
refuses_to_verify 'a trace of no lawful run, before the record' 1 "$NOT_LAWFUL" "sed -i '4s/0/00/' trace; rm out.rec"

refuses_to_verify 'a number that is spelled otherwise' 1 'trace: line 5: Bad' "sed -i '5s/100/0100/' trace"
refuses_to_verify 'an empty trace' 1 'trace: line 1: Bad' ': >trace'
refuses_to_verify 'a trace without its last newline' 1 'trace: line 8: Bad' 'truncate -s -1 trace'
refuses_to_verify 'a trace that stops too soon' 1 'trace: line 5: Bad' "sed -i '5,8d' trace"
refuses_to_verify 'a line that comes too late' 1 'trace: line 9: Bad' "sed -n 6p trace >line; cat line >>trace; rm line"
refuses_to_verify 'a record as the trace' 1 'trace: line 1: Bad' 'cp out.rec trace'
refuses_to_verify 'a bad trace, before the record' 1 'trace: line 1: Bad' ': >trace; rm out.rec'

refuses_to_verify 'a record whose last byte differs' 1 'out.rec: differs at 2270' \
  "printf x | dd of=out.rec bs=1 seek=2270 conv=notrunc status=none"
refuses_to_verify 'a record whose first byte differs' 1 'out.rec: differs at 0' \
  "printf x | dd of=out.rec bs=1 seek=0 conv=notrunc status=none"
refuses_to_verify 'a record with another content' 1 'out.rec: differs at 2181' \
  "printf x | dd of=out.rec bs=1 seek=2181 conv=notrunc status=none"
refuses_to_verify 'a record that is cut' 1 'out.rec: differs at 2200' 'truncate -s 2200 out.rec'
refuses_to_verify 'a record behind which something stands' 1 'out.rec: differs at 2271' 'echo >>out.rec'
refuses_to_verify 'an empty record' 1 'out.rec: differs at 0' ': >out.rec'
refuses_to_verify 'a trace as the record that was written' 1 'out.rec: differs at 0' 'cp trace out.rec'
refuses_to_verify 'the record that was played as the one that was written' 1 'out.rec: differs at 31' 'cp in.rec out.rec'

# What stands first in the way is told, as by `play`, and then in this order.
refuses_to_verify 'without a DAG' 3 'd.dag: the store failed' 'rm d.dag in.rec trace out.rec'
refuses_to_verify 'without a component file' 3 'p.conf: the store failed' 'rm p.conf in.rec trace out.rec'
refuses_to_verify 'without the record that was played' 3 'in.rec: the store failed' 'rm in.rec trace out.rec' --stop q@5
refuses_to_verify 'a trace as the record that was played' 1 'in.rec: not a record' 'cp trace in.rec; rm trace out.rec'
refuses_to_verify 'a record that is cut off' 1 'in.rec: at 2113: Cut' 'truncate -s 2120 in.rec; rm trace out.rec'
refuses_to_verify 'a cycle' 1 'd.dag: TriggerCycle 0' "echo 'out: \"/in\"' >p.conf; rm trace out.rec" --stop q@5
refuses_to_verify 'a stop of no component' 1 'd.dag: StopUnknown "q"' 'rm trace out.rec' --stop q@5
refuses_to_verify 'without a trace' 3 'trace: the store failed' 'rm trace out.rec'
refuses_to_verify 'a folder as the trace' 3 'trace: the store failed' 'rm trace out.rec; mkdir trace'
refuses_to_verify 'a trace that is too long' 5 'trace: limit TraceTooLarge passed: 1073741825' 'truncate -s 1073741825 trace; rm out.rec'
refuses_to_verify 'without the record that was written' 3 'out.rec: the store failed' 'rm out.rec'
refuses_to_verify 'a folder as the record that was written' 3 'out.rec: the store failed' 'rm out.rec; mkdir out.rec'

# Changes the files of random plays, and compares what `verify` says of each with what a Python script says.
judges_as_described() { # how many plays
  begin "says of the changed files of $1 random plays what the rules say"
  python3 "$top/tests/mutations.py" "$program" "$1" 1 >report
  count $? "$name: $(head -n 1 report)"
}

judges_as_described 5

begin 'tells of a standard output that is full'
of_a_pass
: >out
(cd files && exec "$program" verify "${PASS_FILES[@]}" >/dev/full) 2>err
status=$?
ends 4 '' "$OUTPUT"
