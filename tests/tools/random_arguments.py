#!/usr/bin/env python3
"""Looks that the front finds a fault in random arguments just where the program ends with status 2.

    random_arguments.py PROGRAM TOP COUNT SEED

TOP is the folder that has front/. Prints how many arguments there were and in how many a fault was found, and ends with status 1 where the two
differ.
"""
import os
import random
import subprocess
import sys
import tempfile

USAGE = b"cyber: the words are not of a known form\n"
OPTIONS = ["dag", "record", "out", "trace", "sched", "channels", "drop", "begin", "end", "stop", "serial"]
VALUES = ["a", "b", "./a", "", "-", "-x", "--", "--dag", "5", "18446744073709551615", "18446744073709551616", "005", "-5", "5s", "/a,/b", "/a,", ",",
          "p@5", "@5", "p@", "p@q@5", "p@@5", "é", "a=b", "=", " ", "\n", "help", "play"]  # fmt: skip
RIGHT = {
    "play": ["--dag", "d", "--record", "r", "--out", "o", "--trace", "t"],
    "verify": ["--dag=d", "--record=r", "--out=o", "--trace=t"],
    "check": ["--dag", "d"],
    "pass": ["r", "o", "t", "/in", "/out"],
    "info": ["r"],
    "make": ["1", "m"],
    "recover": ["r", "o"],
    "split": ["r", "o"],
}
NO_TEXTS = [b"\xff", b"\xc0\x80", b"\xed\xa0\x80", b"\xf4\x90\x80\x80", b"a\xc3"]
# In another locale a byte that begins a character takes the zero byte behind it along.
FIND = """
top=$1
. "$top/front/front.sh"
. "$top/front/arguments.sh"
words=()
while IFS= LC_ALL=C read -r -d '' word; do
  if [ "$word" = "$2" ]; then
    find_faults "${words[@]}"
    echo "${#faults[@]}"
    words=()
  else
    words+=("$word")
  fi
done
"""
END = "end of the arguments"


def random_words(chance):
    """Arguments that mostly ask for a command, with a few changes."""
    command = chance.choice(list(RIGHT))
    words = [command, *RIGHT[command]]
    for _ in range(chance.choice([0, 0, 1, 1, 2])):
        option = chance.choice(OPTIONS)
        words += chance.choice([[f"--{option}", chance.choice(VALUES)], [f"--{option}={chance.choice(VALUES)}"], [f"--{option}"]])
    for _ in range(chance.choice([0, 0, 1, 2])):
        at = chance.randrange(len(words) + 1)
        words[at : at + chance.choice([0, 1, 1])] = chance.choice([[], [chance.choice(VALUES)], [f"--{chance.choice(OPTIONS)}"]])
    encoded = [word.encode() for word in words]
    if chance.random() < 0.05 and encoded:
        encoded[chance.randrange(len(encoded))] = chance.choice(NO_TEXTS)
    # The front answers these itself.
    return encoded if not {b"--help", b"-h", b"help", b"--version"} & set(encoded) else [b"info"]


def main():
    """Compares, and answers the status."""
    program, top, count, seed = sys.argv[1], sys.argv[2], int(sys.argv[3]), int(sys.argv[4])
    chance = random.Random(seed)
    cases = [random_words(chance) for _ in range(count)]
    given = b"".join(b"".join(word + b"\0" for word in [*words, END.encode()]) for words in cases)
    done = subprocess.run(["bash", "-uc", FIND, "-", top, END], input=given, stdout=subprocess.PIPE, check=True)
    found = [int(line) for line in done.stdout.split()]
    differ = 0
    with tempfile.TemporaryDirectory() as folder:
        for words, faults in zip(cases, found, strict=True):
            ran = subprocess.run([os.fsencode(program), *words], cwd=folder, capture_output=True, check=False)
            if (ran.returncode == 2 and ran.stderr == USAGE) != (faults > 0):
                differ += 1
                print(f"{words}: status {ran.returncode}, and the front finds {faults} faults")
    print(f"{count} arguments, {sum(it > 0 for it in found)} with a fault, {differ} differ")
    return 1 if differ or not 0 < sum(it > 0 for it in found) < count else 0


sys.exit(main())
