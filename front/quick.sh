# shellcheck shell=bash
# The quick look: runs arguments by `rt try`, which compiles the sources with checks, proves nothing and keeps no program. It takes a minute
# or two. The program runs in a folder of its own there: files that it reads are copied into it under their names, and what it writes has
# absolute names.

# Ends, since the quick look can't run the arguments.
refuse_quick_look() { # the reason why it would be needed, and why it isn't done
  {
    echo "cyber: $1, and the quick look can't run this: $2"
    advise_to_build
  } >&2
  exit "$NO_PROGRAM"
}

advise_to_build() {
  echo '  ./cyber --build proves and builds the program, which takes about half an hour the first time.'
}

# Ends as the program would where its line is plain before it runs.
answer_at_once() { # the status, the line, and the arguments
  printf '%s\n' "$2" >&2 || exit 4
  advise "$@"
  exit "$1"
}

# The options and places that name files which the command reads, in the order in which it does, and those that it writes.
files_of_command() {
  reads=()
  writes=()
  case $command in
    play) reads=(dag sched record) && writes=(out trace) ;;
    verify) reads=(dag record trace out) ;;
    check) reads=(dag sched) ;;
    pass) reads=(RECORD) && writes=(OUT TRACE) ;;
    info) reads=(FILE) ;;
    recover | split) reads=(IN) && writes=(OUT) ;;
    merge) reads=(INPUTS) && writes=(OUT) ;;
  esac
}

# Whether a file can be copied into the folder of `rt try` under its own name.
has_plain_name() { # the name
  [[ $1 != /* && $1 != *=* && "/$1/" != */../* && ! $1 =~ ^(\./+)*(program|stdin|stdout|stderr)(/|$) ]]
}

# Has the program read a file under a name.
give() { # the name
  if [[ $1 != /* && -f $1 ]]; then
    data+=(--data "$1=$PWD/$1")
  fi
}

# The bytes of the files that the command reads; a reason in `odd` where one of them is no regular file.
bytes_of() { # the names
  local name size all=0
  for name in "$@"; do
    [ -e "$name" ] || continue
    [ -f "$name" ] || { odd="$(shown "$name") is no regular file" && continue; }
    size=$(stat -L -c %s -- "$name") || continue
    all=$((all + size))
  done
  bytes=$all
}

# The option or place whose value a word is, with what stands in front of the value in that word, or nothing.
place_of() { # the number of the word, the word, and the one before it
  local name=${2#--}
  front_of=
  key=
  if [ "$1" -ge 1 ] && [ "$1" -le ${#places[@]} ]; then
    key=${places[$1 - 1]}
  elif [[ $2 == --*=* ]]; then
    key=${name%%=*}
    front_of=--$key=
  elif [[ $2 != --* && $3 == --* ]]; then
    key=${3#--}
  fi
}

# Puts the arguments into `words` as `rt try` gets them, with absolute names for what is written and for what can't be copied under its own
# name. `given` has the names as they were given, by those absolute names.
make_words() { # the arguments
  local key front_of word number=0 before='' name joined
  declare -gA given=()
  words=()
  for word in "$@"; do
    place_of "$number" "$word" "$before"
    before=$word
    number=$((number + 1))
    if [[ -n $key && " ${reads[*]} ${writes[*]} " == *" $key "* ]]; then
      if [ "$key" = INPUTS ]; then
        join_inputs
        word=$joined
      else
        name=$(name_for_try "$key" "${value_of[$key]}")
        given[$name]=${value_of[$key]}
        word=$front_of$name
      fi
    fi
    words+=("$word")
  done
  [[ $command != make || ${value_of[PREFIX]} == /* ]] || make_absolute_prefix
}

# Puts the names of the inputs of `merge` into `inputs`.
split_inputs() {
  IFS=, read -r -d '' -a inputs < <(printf '%s\0' "${value_of[INPUTS]}")
}

# The inputs of `merge` get absolute names; the list of these is put into `joined`.
join_inputs() {
  local inputs=() name absolute
  joined=
  split_inputs
  for name in "${inputs[@]}"; do
    absolute=$(name_for_try '' "$name")
    given[$absolute]=$name
    joined+=${joined:+,}$absolute
  done
}

# The files of `make` get absolute names.
make_absolute_prefix() {
  local end
  words[2]=$PWD/${value_of[PREFIX]}
  for end in .adder.conf .band.conf .last8.conf .late.conf .dag .record .out .trace; do
    given[${words[2]}$end]=${value_of[PREFIX]}$end
  done
}

# The name that `rt try` gets for a file.
name_for_try() { # the option or place that names it, and the name
  if [[ $2 == /* ]]; then
    printf '%s' "$2"
  elif [[ " ${reads[*]} " == *" $1 "* ]] && has_plain_name "$2"; then
    printf '%s' "$2"
  else
    # No other name in the arguments is spelled like this.
    printf '%s/./%s' "$PWD" "$2"
  fi
}

# Copies a text of the program, with each name that a line begins with as it was given.
print_as_given() { # the file with the text, and what stands before a name in it
  local line name before
  while IFS= read -r line || [ -n "$line" ]; do
    for name in "${!given[@]}"; do
      for before in "${@:2}"; do
        if [[ $line == "$before$name"[:\ ]* ]]; then
          line=$before${given[$name]}${line#"$before$name"}
          break 2
        fi
      done
    done
    printf '%s\n' "$line" || exit 4
  done <"$1"
}

# Whether the arguments are within what a quick look does; ends where they aren't.
looks_small() { # the reason why it would be needed
  local names_read=() inputs=() key odd='' bytes most=$MOST_BYTES
  # What a play wrote is longer than what it read, and quickly verified.
  [[ $command != verify ]] || most=$((4 * MOST_BYTES))
  for key in "${reads[@]}"; do
    if [ "$key" = INPUTS ]; then
      split_inputs
      names_read+=("${inputs[@]}")
    elif [ -n "${value_of[$key]-}" ]; then
      names_read+=("${value_of[$key]}")
    fi
  done
  bytes_of "${names_read[@]}" "${files[@]}"
  [ -z "$odd" ] || refuse_quick_look "$1" "$odd"
  [ "$bytes" -le "$most" ] ||
    refuse_quick_look "$1" "it reads at most $most bytes, and these files have $bytes"
  [[ $command != make ]] || is_below "${value_of[N]}" $((MOST_MADE + 1)) ||
    refuse_quick_look "$1" "it makes at most $MOST_MADE messages"
  [[ $command != make || ${value_of[PREFIX]} == /* || $PWD/${value_of[PREFIX]} != *[!A-Za-z0-9._/+@-]* ]] ||
    refuse_quick_look "$1" 'it makes files under names of letters, digits and . _ - + @ / alone'
  for key in "${files[@]}"; do
    [[ ! -e $key || $key == /* ]] || has_plain_name "$key" ||
      refuse_quick_look "$1" "it can't copy the file $(shown "$key") of the DAG file, whose name leads out of the working folder"
  done
}

# Ends where it is plain without the program what it would answer: the arguments are wrong, or the first file that it would read isn't there.
answer_plainly() { # the arguments
  local first
  [ ${#faults[@]} -eq 0 ] || answer_at_once 2 'cyber: the words are not of a known form' "$@"
  [ ${#reads[@]} -gt 0 ] || return 0
  first=${value_of[${reads[0]}]}
  [ "${reads[0]}" != INPUTS ] || first=${first%%,*}
  [ -e "$first" ] || answer_at_once 3 "cyber: $first: the store failed" "$@"
}

# Runs `words` by `rt try` with the files of `data`, and leaves what comes of it in the folder `room`.
run_by_kit() {
  child=
  signal=
  trap_signals
  (cd "$top/crates/cyber" && exec rt try "${data[@]}" -- "${words[@]}") >"$room/out" 2>"$room/err" </dev/null &
  child=$!
  await_child
  [ -z "$signal" ] || { rm -rf "$room" && end_by_signal $((128 + $(kill -l "$signal"))); }
}

# Runs the arguments by `rt try`, and ends with the status of the program.
quick_look() { # why the program itself can't run, and the arguments
  local reason=$1 words=() data=() reads=() writes=() files=() status key said
  shift
  find_faults "$@"
  files_of_command
  answer_plainly "$@"
  [[ -z ${value_of[dag]-} ]] || look_at_dag "${value_of[dag]}"
  looks_small "$reason"
  needs_kit "$reason"
  make_words "$@"
  for key in "${reads[@]}"; do
    [ -z "${value_of[$key]-}" ] || ! has_plain_name "${value_of[$key]}" || give "${value_of[$key]}"
  done
  for key in "${files[@]}"; do
    give "$key"
  done
  echo "cyber: $reason: this is a quick look. The sources are compiled unproved, with checks, which takes a minute or two." >&2
  room=$(mktemp -d) || exit "$NO_PROGRAM"
  trap 'rm -rf "$room"' EXIT
  run_by_kit
  status=$(take_status) || no_answer
  finish_make
  print_as_given "$room/out" 'file ' 'unknown '
  said=$(print_as_given "$room/said" 'cyber: ')
  [ -z "$said" ] || printf '%s\n' "$said" >&2
  [ "$status" -eq 0 ] || advise "$status" "$said" "$@"
  echo 'cyber: this was the unproved program, with checks.' >&2
  advise_to_build >&2
  exit "$status"
}

# Prints the status of the program, and leaves what it said on standard error; ends with 1 where `rt try` got no answer. What `rt try` says
# itself are the last three lines.
take_status() {
  local count last
  last=$(tail -n 1 "$room/err")
  [[ $last =~ ^run=ended\ status=([0-9]+)\ .*proved=no$ ]] || return 1
  count=$(tail -n 3 "$room/err" | grep -Ec '^(checked: ended status=|races: |run=ended status=)')
  head -n -"$count" "$room/err" >"$room/said"
  echo "${BASH_REMATCH[1]}"
}

no_answer() {
  {
    echo 'cyber: the quick look came to no answer. rt try said:'
    tail -n 20 "$room/err" | sed 's/^/  /'
    advise_to_build
  } >&2
  exit "$NO_PROGRAM"
}

# The DAG file that `make` wrote has absolute names, where the program in its place writes the prefix as it is given.
finish_make() {
  local dag=$PWD/${value_of[PREFIX]-}.dag
  if [[ $command == make && ${value_of[PREFIX]} != /* && $status -ne 3 && -f $dag ]]; then
    sed -i "s|\"$PWD/|\"|" "$dag"
  fi
}
