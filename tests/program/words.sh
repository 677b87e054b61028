# shellcheck shell=bash disable=SC2154
# A part of tests/program.sh, which reads it: words that are of no known form. Those of `verify`, `recover` and `split` are in the parts of these.

refuses_the_words
refuses_the_words pass
refuses_the_words pass a b c /x
refuses_the_words pass a b c /x /y z
refuses_the_words pass a b b /x /y
refuses_the_words pass a a c /x /y
refuses_the_words pass a b a /x /y
refuses_the_words pass a b c /x /x
refuses_the_words pass a b c '' /y
refuses_the_words pass a b c -x /y
refuses_the_words Pass a b c /x /y
refuses_the_words info
refuses_the_words info a b
refuses_the_words info --x
refuses_the_words info ''
refuses_the_words play --serial
refuses_the_words pass a b c /x $'\xff'
refuses_the_words pass $'a\xc3' b c /x /y

refuses_the_words check
refuses_the_words check d.dag
refuses_the_words check --dag
refuses_the_words check --dag=
refuses_the_words check --dag -x
refuses_the_words check --sched s
refuses_the_words check --dag a --dag b
refuses_the_words check --dag a --sched b c
refuses_the_words check -dag a
refuses_the_words check --dag a --plan b
# Words that parsers of command lines take.
refuses_the_words --
refuses_the_words --help
refuses_the_words help
refuses_the_words -V
refuses_the_words check --help
refuses_the_words check --dag=-x
refuses_the_words check --da a
refuses_the_words check --dag a --
refuses_the_words check -- --dag a
refuses_the_words info -h
refuses_the_words info -- a
refuses_the_words make -- 4 m

# All four names that `play` needs, and words that are none of its form beside them.
refuses_a_play() { # the words behind the four names
  refuses_the_words play --dag d --record r --out o --trace t "$@"
}
refuses_the_words play
refuses_the_words play --serial --dag d --record r --out o
refuses_the_words play --serial --dag d --record r --out o --trace
refuses_the_words play --serial --dag d --record r --out o --trace o
refuses_the_words play --serial --dag d --record r --out r --trace t
refuses_the_words play --serial --dag d --record r --out o --trace d
refuses_the_words play --serial --dag d --record r --out s --trace t --sched s
refuses_a_play --serial=x
refuses_a_play --serial --serial
refuses_a_play --serial word
refuses_a_play --serial --plan p
refuses_a_play --serial --dag e
refuses_a_play --serial --channels
refuses_a_play --serial --channels=
refuses_a_play --serial --channels /a,,/b
refuses_a_play --serial --drop /a,
refuses_a_play --serial --begin 1x
refuses_a_play --serial --begin=
refuses_a_play --serial --begin ''
refuses_a_play --serial --end=
refuses_a_play --serial --begin=-1
refuses_a_play --serial --end 18446744073709551616
refuses_a_play --serial --end 000000000000000000001
refuses_a_play --serial --stop
refuses_a_play --serial --stop=
refuses_a_play --serial --stop p
refuses_a_play --serial --stop @5
refuses_a_play --serial --stop p@
refuses_a_play --serial --stop p@-1
refuses_a_play --serial --stop=p@+1
refuses_a_play --serial --stop p@1x
refuses_a_play --serial --stop 'p@ 1'
refuses_a_play --serial --stop p@1@
refuses_a_play --serial --stop p@18446744073709551616
refuses_a_play --serial --stop p@000000000000000000001
refuses_a_play --serial --stop -p@1
refuses_a_play --serial --stop p@1 --stop p@2
refuses_a_play --serial --stop p@1 --stop=p@1
refuses_the_words pass a b c /x /y --stop p@1
refuses_the_words check --dag a --stop p@1

refuses_the_words make
refuses_the_words make 4
refuses_the_words make 4 m x
refuses_the_words make 0 m
refuses_the_words make 1048577 m
refuses_the_words make 4x m
refuses_the_words make -4 m
refuses_the_words make '' m
refuses_the_words make 4 ''
refuses_the_words make 4 -m
refuses_the_words make 000000000000000000004 m
