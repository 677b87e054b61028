#!/usr/bin/env bash
# Runs the tests of tests/units, with checks and unproved, and sums them: those of the groups that are named, or all; or one test of a group.
# Usage: tests/units.sh [GROUP..], or tests/units.sh GROUP NAME, where NAME is the name of a test's function, with its modules where it has
# namesakes, as `text::fields::reads_a_classic_file`.
# A group is a crate of a copy of this repository, since `rt ci` proves each crate that stands here. The status is 0 where all passed.
set -euo pipefail
top=$(cd "$(dirname "$0")/.." && pwd)
units=$top/tests/units
work=$(mktemp -d)
trap 'rm -rf "$work"' EXIT

# The one that takes longest comes first.
groups=(program runs files texts events)
wanted=
place= # the file that it is in, where its modules are named
if [ $# -eq 2 ] && [[ " ${groups[*]} " == *" $1 "* && " ${groups[*]} " != *" $2 "* ]]; then
  wanted=${2##*::}
  place=${2%"$wanted"}
  place=${place#"$1::"}
  place=${place//:://}
  place=${place:+${place%/}.rs}
  set -- "$1"
fi
for group in "$@"; do
  [[ " ${groups[*]} " == *" $group "* ]] || { echo "tests/units.sh: no group '$group': ${groups[*]}" >&2; exit 2; }
done
[ $# -eq 0 ] || groups=("$@")
if [ -n "$wanted" ] && ! grep -rqE "^ *fn $wanted[(<]" "$units/$1/$place"; then
  echo "tests/units.sh: no test '$wanted' in $1${place:+, $place}" >&2
  exit 2
fi

# Copies what all crates are compiled from.
copy_crates() {
  local source crate
  for source in "$top"/crates/*/src; do
    crate=$work/crates/$(basename "$(dirname "$source")")
    mkdir -p "$crate"
    cp -r "$source" "$crate/"
  done
  cp "$top/crates.txt" "$top/HANDLES" "$work/"
  git init -q "$work"
}

# Copies the tests to a folder. They end in .rs here, since the gate takes every file that ends in .rt for part of a crate. Where one test is
# wanted, the others are left out: only a test may start threads by its runtime. A test ends at the brace under its `fn`.
copy_tests() { # the group, the folder
  local file to name
  while read -r file; do
    to=$2/${file%.rs}.rt
    mkdir -p "$(dirname "$to")"
    name=$wanted
    if [ -n "$place" ] && [ "$file" != "./$place" ]; then
      name=- # no test is called so
    fi
    awk -v wanted="$name" '
      ending != "" { if ($0 == ending) ending = ""; next }
      wanted != "" && /^ *(\/\/\/|#\[test\])/ { head = head $0 "\n"; next }
      head ~ /#\[test\]/ && /^ *fn / && $0 !~ "fn " wanted "[(<]" {
        ending = substr($0, 1, match($0, /fn /) - 1) "}"
        head = ""
        next
      }
      { printf "%s", head; head = ""; print }' "$units/$1/$file" >"$to"
  done < <(cd "$units/$1" && find . -name '*.rs')
}

# Makes a group a crate, and tells its folder. The events look at private fields of a world, and so are modules of `wake_core`.
add_group() { # the group
  local world=$work/crates/wake_core/src/world
  if [ "$1" = events ]; then
    copy_tests events "$world"
    sed -i '0,/^mod /s//#[cfg(test)]\nmod driven;\n#[cfg(test)]\nmod events;\nmod /' "$world.rt"
    echo "$work/crates/wake_core"
  else
    copy_tests "$1" "$work/crates/$1/src"
    grep "^$1[ :]" "$units/groups.txt" >>"$work/crates.txt"
    echo "$work/crates/$1"
  fi
}

# Runs the tests of a group, and keeps what it prints and its status. The limit is one for each test: where other programs run beside it,
# the random lists of events take more than the minute that it is else.
run_group() { # the group, its folder
  local status=0
  cd "$2"
  rt try --test --seconds 600 >"$work/$1.log" 2>&1 </dev/null || status=$?
  echo "$status" >"$work/$1.status"
}

# Tells of all tests of a group but those that passed, and adds to the sums. What was not run, as where the group does not compile,
# has failed, and so has a group without tests, or whose run ended with another status than 0.
report() { # the group
  local here=0 bad tests
  tests=$(grep -rhF -A 1 '#[test]' "$units/$1/$place" | grep -cE "^ *fn ${wanted:-[a-z0-9_]+}[(<]") || true
  here=$(grep -cE '^test .* \.\.\. ok$' "$work/$1.log") || true
  bad=$((tests - here))
  if [ "$bad" -eq 0 ] && { [ "$tests" -eq 0 ] || [ "$(cat "$work/$1.status")" != 0 ]; }; then
    bad=1
  fi
  if [ "$bad" -ne 0 ]; then
    grep -vE '^test .* \.\.\. ok$|^races: ' "$work/$1.log" | sed "s|$work/||g" || true
  fi
  echo "$1: $here passed, $bad failed"
  passed=$((passed + here))
  failed=$((failed + bad))
}

copy_crates
for group in "${groups[@]}"; do
  echo "$group $(add_group "$group")"
done >"$work/folders"
export work
export -f run_group
xargs -P "$(nproc)" -L 1 bash -c 'run_group "$0" "$1"' <"$work/folders"
passed=0
failed=0
for group in "${groups[@]}"; do
  report "$group"
done
echo "$passed passed, $failed failed"
[ "$failed" -eq 0 ]
