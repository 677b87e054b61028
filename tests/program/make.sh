# shellcheck shell=bash disable=SC2154
# A part of tests/program.sh, which reads it: `make`.

# Makes the files of a play, and compares all of them and the line with what Python scripts make.
makes_as_described() { # how many messages, as the word has it
  begin "makes a play of $1 messages"
  mkdir files want
  (cd want && python3 "$top/bench/made.py" "$1" m \
    && python3 "$top/tests/replay.py" m.out m.trace ../line --dag m.dag --record m.record)
  run make "$1" m
  ends 0 "$(cat line)" ''
  is_lawful files m.out m.trace --dag m.dag --record m.record
  diff -rq files want >differ
  count $? "$name: $(head -n 1 differ)"
}

makes_a_large_play() {
  begin 'makes a large play, twice the same'
  run make 100000 big
  grep -q '^done: played 100000, shadowed 0, calls ' out
  count $? "$name: standard output got '$(head -c 200 out)'"
  is_lawful files big.out big.trace --dag big.dag --record big.record
  [ "$(sed -n '/^component "adder"/,/^end/p' files/big.trace | tail -n 1)" = 'end DATA_WAIT next 66666' ]
  count $? "$name: adder doesn't end with 66666"
  mv files first
  run make 100000 big
  diff -rq files first >differ
  count $? "$name: $(head -n 1 differ)"
  rm -r files first
}

# As many messages as may be asked for.
makes_the_largest_play() {
  begin 'makes a play of 1048576 messages'
  run make 1048576 m
  grep -q '^done: played 1048576, shadowed 0, calls ' out
  count $? "$name: standard output got '$(head -c 200 out err)'"
  is_lawful files m.out m.trace --dag m.dag --record m.record
  rm -r files
}

# Makes a play where a file can't be made.
makes_without() { # what befalls it, the prefix, what stands behind it in the file's name, and a command that does it
  begin "makes a play where $1"
  mkdir files
  (cd files && eval "$4")
  run make 4 "$2"
  ends 3 '' "cyber: $2$3: the store failed"
}

for count in 1 2 3 4 00000000000000000005 30000; do
  makes_as_described "$count"
done
makes_a_large_play
makes_the_largest_play
makes_without 'the folder is not there' missing/m .adder.conf ''
makes_without 'the DAG file is a folder' m .dag 'mkdir m.dag'
makes_without 'the record is a folder' m .record 'mkdir m.record'
lacks files/m.out
makes_without 'the out file is a folder' m .out 'mkdir m.out'
lacks files/m.trace
makes_without 'the trace is a folder' m .trace 'mkdir m.trace'
