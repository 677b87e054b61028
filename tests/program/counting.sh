# shellcheck shell=bash disable=SC2154
# What tests/program.sh and tests/limits.sh share: tests are begun, the program is run, and what came of it is compared. `program`, `top`
# and the folder `work` are given by who reads this.

passed=0
failed=0
skipped=0

# Counts one comparison, and tells of one that failed.
count() { # whether it is well: 0, and what was compared
  if [ "$1" -eq 0 ]; then
    passed=$((passed + 1))
  else
    failed=$((failed + 1))
    echo "FAILED: $2"
  fi
}

# Says that tests are left out, and why.
leave_out() { # why, and what
  skipped=$((skipped + 1))
  echo "left out, since $1: $2"
}

# Prints how many comparisons came out well, and answers whether all did.
sum_up() {
  local behind=''
  [ "$skipped" -eq 0 ] || behind=", $skipped skipped"
  echo "$passed passed, $failed failed$behind"
  [ "$failed" -eq 0 ]
}

# Begins a test in an empty folder.
begin() { # what it shows
  name=$1
  cd "$(mktemp -d -p "$work")" || exit 1
}

# Runs the program in the folder `files`, with the two streams in files.
run() { # the words
  mkdir -p files
  (cd files && exec "$program" "$@") >out 2>err
  status=$?
}

# Compares the status, and what the two streams got: a line, or nothing.
ends() { # the status, the line on standard output and that on standard error
  [ "$status" -eq "$1" ]
  count $? "$name: status $status, not $1"
  printf '%s' "${2:+$2$'\n'}" | cmp -s - out
  count $? "$name: standard output got '$(head -c 200 out)', not '$2'"
  printf '%s' "${3:+$3$'\n'}" | cmp -s - err
  count $? "$name: standard error got '$(head -c 200 err)', not '$3'"
}

# Compares a file with another.
holds() { # the file, and one with what it has to hold
  cmp -s "$1" "$2"
  count $? "$name: $1 is not as expected"
}

# Looks that a file is not there.
lacks() { # the file
  [ ! -e "$1" ]
  count $? "$name: $1 is there"
}

# Looks that a file is a record that is still being written: its header counts nothing and is not complete.
is_incomplete() { # the file
  local header want='00000000 00000000 2500000000000000 0801 1000 1800 208090dfc04a 2800'
  want+=' 3000 3800 4000 4800 5000 5800 6000 6800 708084af5f 7800'
  header=$(head -c 53 "$1" | od -An -v -tx1 | tr -d ' \n')
  [ "$header" = "${want// /}" ]
  count $? "$name: $1 does not begin with the header of an incomplete record"
}

# Runs the program as nobody, who may not do all that root may.
as_nobody() { # the words
  if [ "$(id -u)" -ne 0 ]; then
    run "$@"
    return
  fi
  cp "$program" program
  chmod 711 "$work" .
  chmod 755 program
  chown 65534 files
  (cd files && exec setpriv --reuid=65534 --regid=65534 --clear-groups ../program "$@") >out 2>err
  status=$?
}
