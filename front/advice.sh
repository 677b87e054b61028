# shellcheck shell=bash
# What a status and the program's line mean, in plain sentences; front/refusals.txt has one for each refusal.

CLASSES=(PassComponent FilterComponent SumComponent CountComponent MaxComponent WindowComponent ChangeComponent SelectComponent
  HoldComponent TakeComponent ExternalComponent)

# Prints a paragraph, with two spaces before each line and at most 100 columns.
say() { # the sentences
  local line='' word rest=$1
  while [ -n "$rest" ]; do
    word=${rest%% *}
    [[ $rest == *' '* ]] && rest=${rest#* } || rest=
    if [[ -n $line && $((${#line} + ${#word})) -gt 97 ]]; then
      printf '  %s\n' "$line"
      line=
    fi
    line+=${line:+ }$word
  done
  [ -z "$line" ] || printf '  %s\n' "$line"
}

# Says what the line means that the program ended with.
advise_on() { # the status, the line, and the arguments
  local status=$1 said=${2%$'\n'}
  shift 2
  find_faults "$@"
  if [ "$status" -eq 2 ]; then
    advise_on_arguments
    return
  fi
  find_file "${said#cyber: }"
  if [ "$status" -eq 3 ]; then
    advise_on_store
  elif find_refusal; then
    say "$(filled "$meaning")$(further)"
    [[ $fault != line*column* ]] || show_place "$file" "${parts[LINE]}" "${parts[COLUMN]}"
    say "$(filled "$remedy")"
  fi
}

# What is wrong with the arguments, and how the command is called.
advise_on_arguments() {
  local sentence
  for sentence in "${faults[@]:0:4}"; do
    say "$sentence"
  done
  echo
  if [ -n "$command" ]; then
    print_part "$command" calls
    echo
    echo "  cyber help $command says more."
  else
    for sentence in "${COMMANDS[@]}"; do
      print_part "$sentence" calls
    done
    echo
    echo '  cyber help COMMAND says more.'
  fi
}

# The role of a file by the option or the place that names it.
role_of() { # that name
  case $1 in
    dag) echo 'DAG file' ;;
    sched) echo 'scheduler file' ;;
    record | RECORD | FILE | IN) echo record ;;
    trace | TRACE) echo trace ;;
    out | OUT) echo 'written record' ;;
  esac
}

# Puts an input of `merge` that a line is on, and its role, into `file` and `role`.
find_input() { # the line behind the program's name
  local inputs name
  IFS=, read -r -d '' -a inputs < <(printf '%s\0' "${value_of[INPUTS]-}")
  for name in "${inputs[@]}"; do
    if [[ ${#name} -gt ${#file} && $1 == "$name: "* ]]; then
      file=$name
      role=record
    fi
  done
}

# Puts the file that a line is on, its role and what is said of it into `file`, `role` and `fault`. The roles are those of the arguments,
# `component file` and, for what `make` writes, `made`; a DAG file may be given as the scheduler file, too.
find_file() { # the line behind the program's name
  local name index
  file=
  role=
  fault=$1
  number=
  for name in "${!value_of[@]}"; do
    if [[ -n $(role_of "$name") && ${#value_of[$name]} -gt ${#file} && $1 == "${value_of[$name]}: "* ]]; then
      file=${value_of[$name]}
    fi
  done
  find_input "$1"
  for name in "${!value_of[@]}"; do
    [[ -z $file || ${value_of[$name]} != "$file" ]] || role+=${role:+, }$(role_of "$name")
  done
  has_dag=no
  if [[ -n ${value_of[dag]-} ]] && look_at_dag "${value_of[dag]}"; then
    has_dag=yes
  fi
  for index in "${!files[@]}"; do
    if [[ -n ${files[index]} && -z $role && $1 == "${files[index]}: "* ]]; then
      file=${files[index]}
      role='component file'
      number=$index
    fi
  done
  if [[ -z $role && $command == make && $1 == *': the store failed' ]]; then
    file=${1%': the store failed'}
    role=made
  elif [[ -z $role && -n ${value_of[dag]-} && $1 == *': '* ]]; then
    # A component file whose name a plain look at the DAG file doesn't find.
    role='component file'
    file=${1%%: *}
  fi
  fault=${1#"$file: "}
}

# Whether the command writes the file that is named.
is_written() {
  case $command in
    verify | check | info) return 1 ;;
    *) [[ $role == *'written record'* || $role == *trace* || $role == made ]] ;;
  esac
}

# Why the file can't be read or written.
advise_on_store() {
  [ -n "$role" ] || return 0
  if is_written; then
    say "Writing $(shown "$file") failed. $(cause_of_writing "$file")"
  elif [ "$role" = 'component file' ]; then
    say "Reading $(shown "$file") failed. $(cause_of_reading "$file")"
    say "The DAG file $(shown "${value_of[dag]}") names it${number:+ for $(component "$number")}."
  else
    say "Reading $(shown "$file") failed. $(cause_of_reading "$file")"
  fi
}

# A component by its number, as a sentence names it.
component() { # the number
  local text="component $1"
  if [[ $has_dag == yes && $1 -lt ${#names[@]} ]]; then
    text+=" ($(shown "${names[$1]:-without a name}"), ${classes[$1]:+class $(shown "${classes[$1]}")}"
    [ -n "${classes[$1]}" ] || text+='without a class_name'
    text+=')'
  else
    text+=' (counted from 0)'
  fi
  printf '%s' "$text"
}

# Finds the row of the refusal in front/refusals.txt, for a file of this role: its parts, what it means and what to do.
find_refusal() {
  local form roles
  while IFS='|' read -r _ form _ roles meaning remedy _; do
    roles=${roles# }
    roles=${roles% }
    form=${form# \`}
    if has_role "$roles" && has_form "${form%\` }"; then
      meaning=${meaning# }
      remedy=${remedy# }
      meaning=${meaning% }
      remedy=${remedy% }
      return 0
    fi
  done <"$top/front/refusals.txt"
  return 1
}

has_role() { # the role of a row
  case $1 in
    '' | any) return 0 ;;
    'configuration file') [[ $role == *'DAG file'* || $role == 'component file' || $role == *'scheduler file'* ]] ;;
    record) [[ ", $role" == *', record'* ]] ;;
    *) [[ $role == *"$1"* ]] ;;
  esac
}

# Whether what is said has a form; then its parts are in `parts`, by their names in the form.
has_form() { # the form
  local pattern='^' word name names_of=()
  local -a words
  IFS=' ' read -r -a words <<<"$1"
  for word in "${words[@]}"; do
    [ "$pattern" = '^' ] || pattern+=' '
    name=${word//[!A-Z]/}
    case $word in
      COMPONENTS)
        pattern+='([0-9]+( [0-9]+)*)'
        names_of=("$name")
        ;;
      \"*\") pattern+='"(.*)"' && names_of+=("$name") ;;
      [A-Z][A-Z][A-Z]*) pattern+="(-?[0-9]+)${word#"$name"}" && names_of+=("$name") ;;
      *) pattern+=$word ;;
    esac
  done
  [[ $fault =~ $pattern$ ]] || return 1
  declare -gA parts=()
  for ((word = 0; word < ${#names_of[@]}; word++)); do
    parts[${names_of[word]}]=${BASH_REMATCH[word + 1]}
  done
}

# A sentence with the parts of the refusal in it.
filled() { # the sentence
  local text='' word bare number_in
  local -a words
  IFS=' ' read -r -a words <<<"${1//\`/}"
  for word in "${words[@]}"; do
    bare=${word%%[.,:;)]*}
    if [[ -n $bare && -n ${parts[$bare]+given} ]]; then
      case $bare in
        COMPONENT | OTHER | TIMER) text+=" $(component "${parts[$bare]}")" ;;
        COMPONENTS)
          for number_in in ${parts[$bare]}; do
            text+=" $(component "$number_in"),"
          done
          text=${text%,}
          ;;
        FIELD | PATH | CHANNEL | NAME | POLICY) text+=" \"${parts[$bare]}\"" ;;
        *) text+=" ${parts[$bare]}" ;;
      esac
      text+=${word#"$bare"}
    else
      text+=" ${word/#tools\//"$top/tools/"}"
    fi
  done
  text=${text# }
  [[ $text != component* ]] || text=${text^}
  printf '%s' "$text"
}

# What a look at the file adds, or nothing.
further() {
  local text=
  case $fault in
    'not a record') text=$(kind_of_file "$file") ;;
    'UnknownClass '*) text=$(nearest_class "${parts[COMPONENT]}") ;;
    'StopUnknown '*) [ "$has_dag" = no ] || text=$(nearest_component) ;;
    NoComponents) [[ $(kind_of_text "$file") != *scheduler_conf* ]] || text='It has scheduler_conf, as a scheduler file does.' ;;
    NoGroup) [[ $(kind_of_text "$file") != *module_config* ]] || text='It has module_config, as a DAG file does.' ;;
    'line 1 column 1: Token') ! begins_with "$file" efbbbf || text='The file begins with a byte order mark.' ;;
  esac
  [ -z "$text" ] || printf ' %s' "$text"
}

nearest_class() { # the number of the component
  local text
  [[ $has_dag == yes && -n ${classes[$1]-} ]] || return 0
  text=$(did_you_mean '' "${classes[$1]}" "${CLASSES[@]}")
  [ -n "$text" ] || text=$(did_you_mean '' "${classes[$1]}Component" "${CLASSES[@]}")
  printf '%s' "${text# }"
}

nearest_component() {
  local text
  text=$(did_you_mean '' "${parts[NAME]}" "${names[@]}")
  printf 'Its components are %s.%s' "$(listed "${names[@]}")" "$text"
}
