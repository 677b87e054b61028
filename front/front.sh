# shellcheck shell=bash
# The front of the program. `./cyber` of the repository and the installed `cyber` run these functions: they answer `--help` and
# `--version`, start the proved program, and say in plain sentences why it refused something. Standard output and the exit status are those
# of the program, and its line is the first one on standard error.
# Who reads this file sets `top`: the folder that has `front/` and, once it is built, the program.

program=$top/crates/cyber/out/cyber
COMMANDS=(play verify pass check info make recover split merge)
# The status where no program ran, since there is none or the quick look refuses the arguments. The program ends with 0 to 6.
NO_PROGRAM=126

is_command() { # a word
  [[ " ${COMMANDS[*]} " == *" $1 "* && $1 != *' '* ]]
}

# Prints the part of front/commands.txt on a command, or only how the command is called: the lines in front of the first empty one.
print_part() { # the command, and `calls` for the calls alone
  local line is_here=no
  while IFS= read -r line; do
    if [[ $line == '== '* ]]; then
      [ "$is_here" = no ] || return 0
      [ "$line" != "== $1" ] || is_here=yes
    elif [ "$is_here" = yes ]; then
      [[ -n $line || ${2-} != calls ]] || return 0
      printf '%s\n' "$line"
    fi
  done <"$top/front/commands.txt"
}

help_on() { # a command, or nothing
  local command
  if [ $# -gt 0 ]; then
    print_part "$1"
    return
  fi
  print_part cyber
  for command in "${COMMANDS[@]}"; do
    print_part "$command" calls
  done
  print_part more
}

# The version that the release wrote down. In the repository it is the commit that is checked out, and what became of the program.
version() {
  local commit=unknown date=unknown kit=unknown line
  if [ -e "$top/front/version.txt" ]; then
    IFS= read -r line <"$top/front/version.txt"
    printf '%s\n' "$line"
    return
  fi
  if [ -e "$top/.git" ] && line=$(git -C "$top" log -1 --date=short --format='%H %cd' 2>/dev/null); then
    commit=${line% *}
    date=${line#* }
    [ -z "$(git -C "$top" status --porcelain 2>/dev/null)" ] || commit+=' with changes'
  fi
  IFS= read -r kit <"$top/front/kit.txt"
  printf 'cyber, commit %s, %s, written for %s\n' "$commit" "$date" "$kit"
  [ ! -e "$top/crates.txt" ] || { . "$top/front/repository.sh" && state_of_program; }
}

# Prints an answer of the front itself on standard output, and ends.
answer() { # the text
  printf '%s\n' "$1" || exit 4
  exit 0
}

# Whether the arguments ask for help; then `topic` is the command, or nothing.
asks_for_help() { # the arguments
  local word
  topic=()
  case ${1-} in
    --help | -h)
      [ $# -eq 1 ] || ! is_command "$2" || topic=("$2")
      return 0
      ;;
    help)
      [ $# -gt 1 ] || return 0
      [ $# -eq 2 ] && is_command "$2" && topic=("$2")
      return
      ;;
  esac
  [ $# -gt 0 ] && is_command "$1" || return 1
  for word in "${@:2}"; do
    if [[ $word == --help || $word == -h ]]; then
      topic=("$1")
      return 0
    fi
  done
  return 1
}

# Says in plain sentences what a status means. That is done in a shell of its own, so that nothing in it can change the status.
advise() { # the status, the program's line, and the arguments
  (
    . "$top/front/arguments.sh"
    . "$top/front/look.sh"
    . "$top/front/advice.sh"
    advise_on "$@"
  ) >&2
}

# Ends as the program did, which a signal ended.
end_by_signal() { # the status
  local name
  name=$(kill -l $(($1 - 128)) 2>/dev/null) || exit "$1"
  if [[ $name == KILL && -z $signal ]]; then
    echo '  The program was ended by the signal KILL. The system sends it where memory runs out.' >&2
  fi
  trap - "$name"
  kill -s "$name" $$
  exit "$1"
}

# Hands a signal on to the program, which else would go on without its front.
hand_on() { # the signal
  signal=$1
  [ -z "$child" ] || kill -s TERM "$child" 2>/dev/null
}

trap_signals() {
  trap 'hand_on HUP' HUP
  trap 'hand_on INT' INT
  trap 'hand_on QUIT' QUIT
  trap 'hand_on TERM' TERM
}

# Waits until the program has ended, and leaves its status in `status`. A signal ends a wait, and not yet the program.
await_child() {
  wait "$child"
  status=$?
  while kill -0 "$child" 2>/dev/null; do
    wait "$child"
    status=$?
  done
}

# Replaces this shell by the program.
become_program() { # the arguments
  # A run reserves all its room at once. In one piece of large pages the kernel hands it out in the fewest steps.
  GLIBC_TUNABLES=${GLIBC_TUNABLES:-glibc.malloc.hugetlb=1:glibc.malloc.mmap_max=0:glibc.malloc.top_pad=67108864} exec "$program" "$@"
}

# Runs the program. Its standard error passes through here, so that the line is known when it ends; the other streams are its own.
run_program() { # the arguments
  local said='' piece status both pipe is_printed=yes
  child=
  signal=
  # A write past a limit of file size, or to a pipe whose reader has gone, is to fail, so that the program ends with its status. Unless these
  # signals are ignored, which the program inherits, the system ends it there.
  trap '' XFSZ PIPE
  trap_signals
  # A pipe, open at both ends. Where there is no /dev/fd, as in a bare root, the program runs without advice.
  [ -d /dev/fd ] || become_program "$@"
  exec {both}<> <(:)
  # What runs behind `&` gets no standard input unless that is said.
  become_program "$@" <&0 2>&"$both" {both}>&- &
  child=$!
  [ -z "$signal" ] || hand_on "$signal"
  # Only the program has the end for writing now, so reading comes to an end when it does.
  exec {pipe}</dev/fd/"$both" {both}>&-
  while IFS= LC_ALL=C read -r -d '' -u "$pipe" piece; do
    said+=$piece
    printf '%s\0' "$piece" >&2 || is_printed=no
  done
  said+=$piece
  [ -z "$piece" ] || printf '%s' "$piece" >&2 || is_printed=no
  await_child
  [[ -z $signal ]] || status=$((128 + $(kill -l "$signal")))
  [ "$status" -le 128 ] || end_by_signal "$status"
  # As the program has it: a line that can't be printed is status 4.
  [[ $is_printed == yes || $status -eq 0 ]] || exit 4
  [ "$status" -eq 0 ] || advise "$status" "$said" "$@"
  exit "$status"
}

front() { # the arguments
  if asks_for_help "$@"; then
    answer "$(help_on "${topic[@]}")"
  elif [[ $# -eq 1 && $1 == --version ]]; then
    answer "$(version)"
  fi
  # In the repository the program may have to be built first.
  if [ -e "$top/crates.txt" ]; then
    . "$top/front/repository.sh"
    prepare "$@"
  fi
  run_program "$@"
}
