# shellcheck shell=bash
# What `./cyber` does in the repository before the program can run: it looks whether the program is built of the sources as they are, and
# either builds it (`--build`) or runs the arguments unproved (the quick look).
log=$top/.build.log
# The most bytes of files that a quick look reads, and the most messages that it makes. Half a minute is enough for them with all checks.
MOST_BYTES=262144
MOST_MADE=15000

# A file that is newer than the program, or nothing.
newer_source() {
  find "$top/crates" "$top/crates.txt" "$top/HANDLES" -name out -prune -o -newer "$program" \
    \( -name '*.rt' -o -name '*.antt' -o -name crates.txt -o -name HANDLES \) -print -quit
}

# Prints what became of the program, for `--version`.
state_of_program() {
  local newer
  if [ ! -x "$program" ]; then
    echo 'The program is not built: ./cyber --build builds it.'
    return
  fi
  newer=$(newer_source)
  if [ -n "$newer" ]; then
    echo "The program is older than its sources (${newer#"$top/"}): ./cyber --build builds it."
  else
    echo "The program is built: ${program#./}"
  fi
}

# Comes back only where the program is there and not older than its sources.
prepare() { # the arguments
  local reason
  if [ ! -x "$program" ]; then
    reason='the program is not built yet'
  else
    reason=$(newer_source)
    [ -z "$reason" ] || reason="the program is older than its sources (${reason#"$top/"})"
  fi
  if [[ $# -eq 1 && $1 == --build ]]; then
    . "$top/front/build.sh"
    [ -n "$reason" ] || { echo "cyber: the program is built, and its sources have not changed since" >&2 && exit 0; }
    needs_kit "$reason"
    build
    exit 0
  fi
  [ -n "$reason" ] || return 0
  . "$top/front/arguments.sh"
  . "$top/front/look.sh"
  . "$top/front/quick.sh"
  quick_look "$reason" "$@"
}

# Ends where there is no kit.
needs_kit() { # why it is needed
  command -v rt >/dev/null && return
  {
    echo "cyber: $1, and there is no command rt"
    echo '  rt is the command of the Rattle kit, which proves and compiles this program. Unpack a kit and put its folder bin'
    echo "  on the PATH. The sources were proved with $(cat "$top/front/kit.txt")."
    echo '  An installed release needs no kit.'
    [ ! -x "$program" ] || echo "  The older program is ${program#./}, and can be called by that name."
  } >&2
  exit "$NO_PROGRAM"
}
