# shellcheck shell=bash
# Proves and builds the program, and says on standard error how far that is.

# The lines of crates.txt of the program and of all crates that it stands on. The others have laws and tests alone, which the gate proves.
crates_needed() {
  awk -v program=cyber '
    { line[NR] = $0; crate[NR] = $1; sub(/:$/, "", crate[NR]); sub(/^[^:]*:/, ""); below[NR] = $0 }
    END {
      needed[program]
      for (i = NR; i; i--) if (crate[i] in needed) { count = split(below[i], names, " "); for (k = 1; k <= count; k++) needed[names[k]] }
      for (i = 1; i <= NR; i++) if (crate[i] in needed) print line[i]
    }' "$top/crates.txt"
}

# Which crates are proved so far, by the log, and what share of the work they are, by the seconds that front/weights.txt has for each. A
# crate that has no line there counts as a minute.
proved_so_far() {
  awk '
    /^#/ { next }
    FILENAME ~ /crates.txt$/ { sub(/[ :].*/, ""); weight[$0] = 60; next }
    FILENAME ~ /weights.txt$/ { if ($1 in weight) weight[$1] = $2; next }
    $1 == "rt:" && ($3 == "proved" || $3 == "is" && $4 == "kept:") { done[$2] }
    END {
      for (crate in weight) { all += weight[crate]; count++ }
      for (crate in done) { part += weight[crate]; proved++ }
      printf "%d of %d crates proved, %d %% of the work", proved, count, 100 * part / all
    }' "$copy/crates.txt" "$top/front/weights.txt" "$log"
}

# The time since the build began, in minutes and seconds.
minutes_taken() {
  printf '%d:%02d' $((SECONDS / 60)) $((SECONDS % 60))
}

# Says how far a build is, by the lines of its log, and what time it has taken, until it ends.
tell_progress() { # the number of its process
  local now told='' at=0
  while kill -0 "$1" 2>/dev/null; do
    now=$(proved_so_far)
    if [ "$now" != "$told" ] || [ $((SECONDS - at)) -ge 60 ]; then
      echo "cyber: $now; $(minutes_taken) so far" >&2
      told=$now
      at=$SECONDS
    fi
    sleep 1
  done
}

# Says where this kit is another one than that with which the sources were proved.
warn_of_other_kit() {
  local wanted here
  IFS= read -r wanted <"$top/front/kit.txt"
  here=$(rt version 2>/dev/null)
  [[ ${here#* } == "${wanted#* }" ]] ||
    echo "cyber: the kit here is ${here:-of no known version}; the sources were proved with $wanted" >&2
}

# A build that is stopped leaves nothing behind.
stop_build() {
  [ -z "${build_id-}" ] || { kill -s TERM "$build_id" 2>/dev/null && wait "$build_id" 2>/dev/null; } || true
  rm -rf "$copy"
}

# Proves and builds in a copy, with as many crates side by side as there are processors and memory. The copy has no must-fail edits, which
# the gate tries besides; what is proved here the gate takes from here.
build() {
  echo 'cyber: proving and building the program, which takes half an hour or more the first time' >&2
  warn_of_other_kit
  set -e
  SECONDS=0
  copy=$(mktemp -d)
  : >"$copy/begun"
  trap 'stop_build' EXIT
  trap 'exit 130' INT
  trap 'exit 143' TERM HUP
  crates_needed >"$copy/crates.txt"
  { echo HANDLES && sed 's/[ :].*//; s|^|crates/|' "$copy/crates.txt"; } |
    tar -C "$top" --exclude=out --exclude=must-fail -T - -cf - | tar -C "$copy" -xf -
  git init -q "$copy"
  : >"$log"
  (cd "$copy" && exec rt ci) >"$log" 2>&1 </dev/null &
  build_id=$!
  tell_progress "$build_id"
  if ! wait "$build_id"; then
    tail -n 20 "$log" >&2
    echo "cyber: the build failed; all it said is in $log" >&2
    exit "$NO_PROGRAM"
  fi
  mkdir -p "$(dirname "$program")"
  cp "$copy/crates/cyber/out/cyber" "$program"
  # What is changed while it is built is newer than it.
  touch -r "$copy/begun" "$program"
  rm -rf "$copy"
  trap - EXIT
  echo "cyber: built in $(minutes_taken)" >&2
}
