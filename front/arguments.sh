# shellcheck shell=bash
# What is wrong with arguments, as docs/FORMATS.md lists them. `find_faults` comes to a fault just where the program ends with status 2.

# What a command takes: names at their places, options with a value, flags, and which options it needs.
known_of() { # the command
  places=()
  valued=()
  flags=()
  needed=()
  case $1 in
    play)
      valued=(dag record out trace sched channels drop begin end stop)
      flags=(serial)
      needed=(dag record out trace)
      ;;
    verify)
      valued=(dag record out trace channels drop begin end stop)
      needed=(dag record out trace)
      ;;
    check)
      valued=(dag sched)
      needed=(dag)
      ;;
    pass) places=(RECORD OUT TRACE FROM TO) ;;
    info) places=(FILE) ;;
    make) places=(N PREFIX) ;;
    recover) places=(IN OUT) ;;
    split)
      places=(IN OUT)
      valued=(channels drop begin end)
      ;;
    merge) places=(INPUTS OUT) ;;
  esac
}

# What the value of an option is.
kind_of_value() { # the option
  case $1 in
    dag | record | out | trace | sched) echo 'the name of a file' ;;
    channels | drop) echo 'names of channels with commas between them' ;;
    begin | end) echo 'a time in nanoseconds' ;;
    stop) echo 'NAME@N, a component and a time in nanoseconds' ;;
  esac
}

is_utf8() { # a text
  local LC_ALL=C
  local tail=$'[\x80-\xbf]'
  local form=$'^([\x01-\x7f]|[\xc2-\xdf]'$tail$'|\xe0[\xa0-\xbf]'$tail$'|[\xe1-\xec\xee\xef]'$tail$tail$'|\xed[\x80-\x9f]'$tail
  form+=$'|\xf0[\x90-\xbf]'$tail$tail$'|[\xf1-\xf3]'$tail$tail$tail$'|\xf4[\x80-\x8f]'$tail$tail')*$'
  [[ $1 != *[$'\x80'-$'\xff']* || $1 =~ $form ]]
}

# A word as it is shown in a sentence: in quotes, with escapes where it has bytes that a terminal can't show, and not too long.
shown() { # the word
  local word=$1
  [ ${#word} -le 200 ] || word=${word:0:200}...
  if is_utf8 "$word" && [[ $word != *[$'\001'-$'\037'$'\177']* ]]; then
    printf "'%s'" "$word"
  else
    (LC_ALL=C && printf '%s' "${word@Q}")
  fi
}

# Joins words to a list: `a`, `a and b`, `a, b and c`.
listed() { # the words
  local list=${1-}
  while [ $# -gt 2 ]; do
    list+=", $2"
    shift
  done
  [ $# -lt 2 ] || list+=" and $2"
  printf '%s' "$list"
}

# How many letters have to be changed, left out, added or swapped with their neighbour to make one word of another.
distance() { # the two words
  local -a row before earlier
  local i j cost least
  for ((j = 0; j <= ${#2}; j++)); do
    row[j]=$j
  done
  for ((i = 1; i <= ${#1}; i++)); do
    earlier=("${before[@]}")
    before=("${row[@]}")
    row=("$i")
    for ((j = 1; j <= ${#2}; j++)); do
      cost=1
      [[ ${1:i-1:1} != "${2:j-1:1}" ]] || cost=0
      least=$((before[j - 1] + cost))
      [ $((before[j] + 1)) -ge "$least" ] || least=$((before[j] + 1))
      [ $((row[j - 1] + 1)) -ge "$least" ] || least=$((row[j - 1] + 1))
      if [[ $i -gt 1 && $j -gt 1 && ${1:i-1:1} == "${2:j-2:1}" && ${1:i-2:1} == "${2:j-1:1}" ]]; then
        [ $((earlier[j - 2] + 1)) -ge "$least" ] || least=$((earlier[j - 2] + 1))
      fi
      row[j]=$least
    done
  done
  echo "${row[${#2}]}"
}

# The word that is nearest to another one and not far from it, or nothing.
nearest() { # the word, and those that there are
  local word=${1,,} best='' least=100 each far
  [ ${#word} -le 40 ] || return 0
  for each in "${@:2}"; do
    far=$(distance "$word" "${each,,}")
    if [ "$far" -lt "$least" ]; then
      least=$far
      best=$each
    fi
  done
  [ "$least" -gt $((${#word} / 3 + 1)) ] || [ "$least" -ge "${#best}" ] || printf '%s' "$best"
}

# A question for a word that was meant, or nothing.
did_you_mean() { # how it is spelled, the word, and those that there are
  local best
  best=$(nearest "${@:2}")
  [ -z "$best" ] || printf ' Did you mean %s?' "$1$best"
}

add_fault() { # a sentence
  faults+=("$1")
}

# Which commands have an option.
commands_with() { # the option
  local command
  for command in "${COMMANDS[@]}"; do
    known_of "$command"
    [[ " ${valued[*]} ${flags[*]} " != *" $1 "* ]] || printf '%s ' "$command"
  done
}

# The first argument is no command.
fault_of_command() { # the arguments
  local word
  if [ $# -eq 0 ]; then
    add_fault "No command is given. The commands are $(listed "${COMMANDS[@]}")."
    return
  elif [[ $1 == help && $# -gt 1 ]] && is_command "$2"; then
    add_fault "help takes the name of one command, and $(shown "$3") is one too many."
    return
  elif [[ $1 == help && -n ${2-} ]]; then
    add_fault "help takes the name of one command, and $(shown "$2") is none.$(did_you_mean '' "$2" "${COMMANDS[@]}")"
    return
  fi
  for word in "${@:2}"; do
    if [[ $1 == -* ]] && is_command "$word"; then
      add_fault "The command comes first, and $(shown "$1") after it: cyber $word $(shown "$1") ..."
      return
    fi
  done
  word=$(did_you_mean '' "$1" "${COMMANDS[@]}" --help --version)
  [[ $1 != -[vV] && $1 != version ]] || word=' Did you mean --version?'
  add_fault "There is no command $(shown "$1").${word:- The commands are $(listed "${COMMANDS[@]}").}"
}

# What is wrong with a word at a place, or nothing.
fault_of_place() { # the place, and the word
  if [ -z "$2" ]; then
    echo "$1 is empty."
  elif [[ $1 == N && ! $2 =~ ^[0-9]+$ ]]; then
    echo "N has to be a whole number from 1 to 1048576, and $(shown "$2") is none."
  elif [[ $2 == --?* ]] && known_option "${2#--}"; then
    echo "$(listed "${places[@]}") come before the options: cyber $command ${places[*]} [OPTIONS]"
  elif [[ $2 == --?* && ${#valued[@]} -eq 0 ]]; then
    echo "$command takes no options, and $(shown "$2") looks like one. Its arguments are ${places[*]}."
  elif [[ $2 == -* ]]; then
    fault_of_hyphen "$1" "$2"
  elif [[ $1 == INPUTS && ,$2, == *,,* ]]; then
    echo "INPUTS is names of records with single commas between them, and $(shown "$2") has an empty name."
  elif [[ $1 == N ]] && ! is_made "$2"; then
    echo "N has to be a whole number from 1 to 1048576, and $(shown "$2") is none."
  fi
}

# What is wrong with a name that begins with a hyphen.
fault_of_hyphen() { # what has it, and the name
  if [ "$2" = - ]; then
    echo "$1 can't be '-': files have names here, and standard input is /dev/stdin if it is a file."
  elif [[ $1 == FROM || $1 == TO || $1 == *--channels || $1 == *--drop || $1 == *--stop ]]; then
    echo "$1 can't begin with a hyphen: $(shown "$2")."
  else
    echo "$1 can't begin with a hyphen: $(shown "$2"). A file of that name is $(shown "./$2")."
  fi
}

# Whether a word is an option of the command, alone or with its value.
known_option() { # the word without its hyphens
  [[ " ${valued[*]} ${flags[*]} " == *" ${1%%=*} "* ]]
}

is_made() { # a text of digits
  [ ${#1} -le 20 ] && is_below "$1" 1048577 && is_below 0 "$1"
}

# Whether one decimal number is below another one; leading zeros count for nothing.
is_below() { # the two
  local one=$1 other=$2
  while [[ $one == 0?* ]]; do one=${one#0}; done
  while [[ $other == 0?* ]]; do other=${other#0}; done
  if [ ${#one} -ne ${#other} ]; then
    [ ${#one} -lt ${#other} ]
  else
    [[ $one < $other ]]
  fi
}

# What is wrong with a whole number, or nothing.
fault_of_number() { # its option, and the text
  local what
  what="$1 takes a whole number of nanoseconds, and $(shown "$2")"
  if [[ $2 =~ ^-[0-9]+$ ]]; then
    echo "$what is below 0."
  elif [[ ! $2 =~ ^[0-9]+$ ]]; then
    echo "$what is none."
  elif [ ${#2} -gt 20 ]; then
    echo "$what has more than 20 digits."
  elif ! is_below "$2" 18446744073709551616; then
    echo "$what is above 18446744073709551615."
  fi
}

# What is wrong with the value of an option, or nothing.
fault_of_value() { # the option, and the value
  if [ -z "$2" ]; then
    echo "The value of --$1 is empty. It has to be $(kind_of_value "$1")."
  elif [[ ($1 == begin || $1 == end) && $2 == -* ]]; then
    fault_of_number "--$1" "$2"
  elif [[ $2 == -* ]]; then
    fault_of_hyphen "The value of --$1" "$2"
  elif [[ $1 == begin || $1 == end ]]; then
    fault_of_number "--$1" "$2"
  elif [[ ($1 == channels || $1 == drop) && ,$2, == *,,* ]]; then
    echo "--$1 takes names of channels with single commas between them, and $(shown "$2") has an empty name."
  elif [ "$1" = stop ]; then
    fault_of_stop "$2"
  fi
}

fault_of_stop() { # the value of --stop
  if [[ $1 != *@* ]]; then
    echo "--stop takes NAME@N, and $(shown "$1") has no @ and no time."
  elif [[ $1 == @* && ${1#@} != *@* ]]; then
    echo "--stop takes NAME@N, and $(shown "$1") has no name in front of the @."
  else
    fault_of_number 'Behind its @, --stop' "${1##*@}"
  fi
}

# Takes the words at the places into `value_of`, and says how many were taken by `taken`.
take_places() { # the arguments behind the command
  local place fault
  taken=0
  for place in "${places[@]}"; do
    if [ "$taken" -ge $# ]; then
      add_fault "$command takes ${places[*]}. $(listed "${places[@]:taken}") $(is_or_are $((${#places[@]} - taken))) missing."
      return 1
    fi
    taken=$((taken + 1))
    fault=$(fault_of_place "$place" "${!taken}")
    if [ -n "$fault" ]; then
      add_fault "$fault"
      return 1
    fi
    value_of[$place]=${!taken}
  done
}

is_or_are() { # how many
  if [ "$1" -eq 1 ]; then echo is; else echo are; fi
}

# A word that begins with a hyphen and is no option of the command.
fault_of_option() { # the word
  local name=${1#-} other
  name=${name#-}
  name=${name%%=*}
  other=$(commands_with "$name")
  if [ -z "$name" ]; then
    add_fault "$command takes no $(shown "$1")."
  elif [[ $1 != --* ]] && known_option "$name"; then
    add_fault "Options begin with two hyphens: --$name, not $(shown "$1")."
  elif [ ${#places[@]} -gt 0 ] && [ ${#valued[@]} -eq 0 ]; then
    add_fault "$command takes no options, and $(shown "$1") is one too many. Its arguments are ${places[*]}."
  elif [ -n "$other" ]; then
    # shellcheck disable=SC2086
    add_fault "$command has no option --$name. $(listed $other) $(if [[ ${other% } == *' '* ]]; then echo have; else echo has; fi) it."
  else
    add_fault "$command has no option $(shown "${1%%=*}").$(did_you_mean -- "$name" "${valued[@]}" "${flags[@]}")"
  fi
}

# Takes an option into `value_of`, and says by `taken` how many words it has.
take_option() { # the words from it on
  local name=${1#--} value fault
  taken=1
  if [[ $1 != --?* ]] || ! known_option "$name"; then
    fault_of_option "$1"
    is_unknown=yes
    # What follows an option that isn't known may be its value.
    [[ $1 == *=* || $# -lt 2 || ${2-} == -* ]] || taken=2
    return
  fi
  name=${name%%=*}
  if [[ " ${flags[*]} " == *" $name "* ]]; then
    value=
    [[ $1 != *=* ]] || add_fault "--$name takes no value, and has $(shown "${1#*=}")."
  elif [[ $1 == *=* ]]; then
    value=${1#*=}
    fault=$(fault_of_value "$name" "$value")
  elif [[ $# -lt 2 || ${2-} == --?* ]]; then
    add_fault "--$name needs a value behind it: $(kind_of_value "$name")."
    value_of[$name]=
    return
  else
    value=$2
    taken=2
    fault=$(fault_of_value "$name" "$value")
  fi
  [ -z "${fault-}" ] || add_fault "$fault"
  [ -z "${value_of[$name]+given}" ] || add_fault "--$name is given twice."
  value_of[$name]=$value
}

# A word that is neither an option nor the value of one.
fault_of_word() { # the word
  if [[ $1 == [a-z]* && ${#places[@]} -eq 0 ]] && known_option "$1"; then
    add_fault "An option begins with two hyphens: --${1%%=*}, not $(shown "$1")."
    is_unknown=yes
  elif [ ${#places[@]} -eq 0 ]; then
    add_fault "$command takes only options, and $(shown "$1") is neither an option nor the value of one."
  else
    add_fault "$command takes ${places[*]}, and $(shown "$1") is one too many."
  fi
}

# Options that the command needs and that aren't given.
find_missing() {
  local name missing=()
  for name in "${needed[@]}"; do
    [ -n "${value_of[$name]+given}" ] || missing+=("--$name")
  done
  [ ${#missing[@]} -eq 0 ] ||
    add_fault "$command needs $(listed "${needed[@]/#/--}"). $(listed "${missing[@]}") $(is_or_are ${#missing[@]}) missing."
}

# Adds a fault where two that have to differ are the same.
find_equal() { # what they are, and pairs of names
  local what=$1 pair one other
  shift
  for pair in "$@"; do
    one=${pair% *}
    other=${pair#* }
    if [[ -n ${value_of[$one]+given} && -n ${value_of[$other]+given} && ${value_of[$one]} == "${value_of[$other]}" ]]; then
      [[ $one == [A-Z]* ]] || { one=--$one && other=--$other; }
      add_fault "$one and $other name the same $what, $(shown "${value_of[${pair% *}]}"), and have to differ."
    fi
  done
}

# Adds a fault where the output is also one of the inputs.
find_merged() {
  [[ -n ${value_of[INPUTS]+given} && -n ${value_of[OUT]+given} && ,${value_of[INPUTS]}, == *",${value_of[OUT]},"* ]] || return 0
  [[ ${value_of[OUT]} != *,* ]] || return 0
  add_fault "OUT is also one of INPUTS, $(shown "${value_of[OUT]}"), and has to be another file."
}

find_equal_names() {
  case $command in
    play) find_equal file 'out trace' 'out record' 'out dag' 'out sched' 'trace record' 'trace dag' 'trace sched' ;;
    verify) find_equal file 'out trace' 'out record' 'out dag' 'trace record' 'trace dag' 'record dag' ;;
    pass)
      find_equal file 'RECORD OUT' 'RECORD TRACE' 'OUT TRACE'
      find_equal channel 'FROM TO'
      ;;
    recover | split) find_equal file 'IN OUT' ;;
    merge) find_merged ;;
  esac
}

# Puts a sentence into `faults` for each thing that is wrong with the arguments. The values come into `value_of`, by the names of options and
# places; `command` is the first argument, where that is a command, and else empty.
find_faults() { # the arguments
  local word is_unknown=no taken
  declare -g command=
  declare -gA value_of=()
  declare -ga faults=() places valued flags needed
  for word in "$@"; do
    is_utf8 "$word" || add_fault "$(shown "$word") is no text in UTF-8."
  done
  if [ $# -eq 0 ] || ! is_command "$1"; then
    fault_of_command "$@"
    return
  fi
  command=$1
  shift
  known_of "$command"
  take_places "$@" || return 0
  shift "$taken"
  while [ $# -gt 0 ]; do
    taken=1
    if [[ $1 == -* ]]; then
      take_option "$@"
    elif [ "$is_unknown" = no ]; then
      fault_of_word "$1"
    fi
    shift "$taken"
  done
  [[ $is_unknown == yes ]] || find_missing
  [ ${#faults[@]} -gt 0 ] || find_equal_names
}
