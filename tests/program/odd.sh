# shellcheck shell=bash disable=SC2154
# A part of tests/program.sh, which reads it: damaged files, odd words, and limits of the machine.

stands 'answers damaged files' hostile.py 300 1
stands 'answers odd words' hostile_words.py
stands 'answers where the machine sets limits' limits.sh
