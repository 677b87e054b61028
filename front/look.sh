# shellcheck shell=bash
# Looks at files: why one can't be read or written, what kind of file it is, and what a DAG file names.

# What the system says where it refuses to open a file, or nothing. No pipe or device is opened, and no file is made or changed.
said_by_system() { # `<` or `>>`, and the file
  local text
  if [ "$1" = '<' ]; then
    text=$({ LC_ALL=C; : <"$2"; } 2>&1) || printf '%s' "${text##*: }"
  elif [ -f "$2" ]; then
    text=$({ LC_ALL=C; : >>"$2"; } 2>&1) || printf '%s' "${text##*: }"
  fi
}

folder_of() { # a name
  case $1 in
    */*) printf '%s' "${1%/*}/" ;;
    *) printf './' ;;
  esac
}

# What is in the way among the folders above a file, or nothing.
fault_of_folders() { # the name of the file
  local rest=$1 path=
  while [[ $rest == */* ]]; do
    path+=${rest%%/*}/
    rest=${rest#*/}
    if [ -d "$path" ]; then
      [ -x "$path" ] || { echo "You may not look into the folder $(shown "${path%/}")." && return; }
    elif [ -e "${path%/}" ]; then
      echo "$(shown "${path%/}") is a file and no folder."
      return
    else
      echo "There is no folder $(shown "${path%/}").$(working_folder "$1")"
      return
    fi
  done
  [ "$(LC_ALL=C && printf '%s' "${#rest}")" -le 255 ] || echo 'Its name has more than 255 bytes.'
}

# What is there under a name and is no regular file, or nothing.
odd_kind() { # the name
  if [ -d "$1" ]; then
    echo 'It is a folder.'
  elif [ -p "$1" ]; then
    echo 'It is a pipe. It has to be a file, which can be read and written at any place.'
  elif [ -S "$1" ]; then
    echo 'It is a socket and no file.'
  elif [ -c "$1" ] || [ -b "$1" ]; then
    echo 'It is a device, which refused that.'
  fi
}

# A link whose end isn't there, or nothing.
fault_of_link() { # the name
  local target
  if [ -L "$1" ] && [ ! -e "$1" ]; then
    target=$(readlink -- "$1") || return 0
    if [[ $(said_by_system '<' "$1") == *'symbolic links'* ]]; then
      echo 'It is a symbolic link that leads back to itself.'
    else
      echo "It is a symbolic link to $(shown "$target"), and nothing is there."
    fi
  fi
}

# The first that is said, of several questions about a name.
first_said() { # the name, and the questions
  local question answer
  for question in "${@:2}"; do
    answer=$($question "$1")
    [ -z "$answer" ] || { echo "$answer" && return; }
  done
}

# Why a file can't be read, as far as that is seen by looking.
cause_of_reading() { # the name
  local cause
  cause=$(first_said "$1" fault_of_folders fault_of_link odd_kind)
  if [ -n "$cause" ]; then
    echo "$cause"
  elif [ ! -e "$1" ]; then
    echo "There is no such file.$(working_folder "$1")"
  else
    cause=$(said_by_system '<' "$1")
    case $cause in
      '') echo 'It can be opened now. Reading it failed, or it came only afterwards.' ;;
      'Permission denied') echo 'You may not read it.' ;;
      *) echo "The system says: $cause." ;;
    esac
  fi
}

# From where a relative name counts.
working_folder() { # the name
  [[ $1 == /* ]] || printf ' The name counts from the working folder, %s.' "$(shown "$PWD")"
}

# Why a file can't be written, as far as that is seen by looking.
cause_of_writing() { # the name
  local cause
  cause=$(first_said "$1" fault_of_folders odd_kind fault_of_target fault_of_leave fault_of_size fault_of_room)
  echo "${cause:-It can be written now. Writing it failed, or the cause is gone.}"
}

# What a link to a file that isn't there has in the way, or nothing.
fault_of_target() { # the name
  local target
  if [ -L "$1" ] && [ ! -e "$1" ]; then
    target=$(readlink -- "$1") || return 0
    [[ $target == /* || $1 != */* ]] || target=${1%/*}/$target
    target=$(fault_of_folders "$target")
    echo "${target:-$(fault_of_link "$1")}"
  fi
}

# What the system doesn't allow, or nothing.
fault_of_leave() { # the name
  local cause folder
  if [ -e "$1" ]; then
    cause=$(said_by_system '>>' "$1")
    case $cause in
      '') ;;
      'Permission denied') echo 'You may not write it.' ;;
      'Text file busy') echo 'It is a program that is running.' ;;
      'Read-only file system') echo 'Its file system may only be read.' ;;
      *) echo "The system says: $cause." ;;
    esac
    return
  fi
  folder=$(folder_of "$1")
  if [ ! -w "$folder" ]; then
    if [ "$EUID" -eq 0 ]; then
      echo "The file system of the folder $(shown "$folder") may only be read."
    else
      echo "You may not make a file in the folder $(shown "$folder")."
    fi
  fi
}

# Whether a file has come to the limit of file size of this shell.
fault_of_size() { # the name
  local limit size
  limit=$(ulimit -f)
  [ "$limit" != unlimited ] || return 0
  limit=$((limit * 1024))
  size=$(stat -L -c %s -- "$1" 2>/dev/null || echo 0)
  [ "$size" -lt "$limit" ] || echo "A file may have at most $limit bytes here (ulimit -f)."
}

# Whether the disk is full, or nearly so.
fault_of_room() { # the name
  local folder left
  folder=$(folder_of "$1")
  left=$(df -P -k -- "$folder" 2>/dev/null | awk 'END { print $4 }')
  if [[ $left =~ ^[0-9]+$ ]] && [ "$left" -lt 1024 ]; then
    echo "The disk is full: the file system of the folder $(shown "$folder") has room for $left kB more."
    return
  fi
  left=$(df -P -i -- "$folder" 2>/dev/null | awk 'END { print $4 }')
  [ "$left" != 0 ] || echo "The file system of the folder $(shown "$folder") can't have more files."
}

# What kind of file one is by its first bytes, where that is plain, and what to do.
kind_of_file() { # the name
  local first
  [ -f "$1" ] && [ -r "$1" ] || return 0
  first=$(od -An -v -tx1 -N 262 -- "$1" 2>/dev/null | tr -d ' \n')
  case $first in
    '') echo 'The file is empty.' ;;
    894d434150*) echo 'It is an MCAP file, which this program does not read. Convert it to a Cyber RT record.' ;;
    23524f53424147*) echo 'It is a bag of ROS 1, which this program does not read. Convert it to a Cyber RT record.' ;;
    53514c69746520666f726d617420*) echo 'It is an SQLite database, as ROS 2 writes its bags (.db3). Convert it to a Cyber RT record.' ;;
    1f8b*) echo 'It is compressed by gzip. Unpack it first: gunzip.' ;;
    28b52ffd*) echo 'It is compressed by zstd. Unpack it first: unzstd.' ;;
    fd377a585a*) echo 'It is compressed by xz. Unpack it first: unxz.' ;;
    425a68*) echo 'It is compressed by bzip2. Unpack it first: bunzip2.' ;;
    04224d18*) echo 'It is compressed by lz4. Unpack it first: unlz4.' ;;
    504b0304*) echo 'It is a zip archive. Unpack it first: unzip.' ;;
    7f454c46*) echo 'It is a program.' ;;
    63796265722d7472616365*) echo 'It is a trace that this program wrote. Its record is the file that --out names.' ;;
    *7573746172*) [[ ${first:514} != 7573746172* ]] || echo 'It is a tar archive. Unpack it first: tar -xf.' ;;
    *) kind_of_text "$1" ;;
  esac
}

# Whether a file is a text, and whether it looks like a configuration file.
kind_of_text() { # the name
  local line count=0 what='It is a text file.'
  while IFS= read -r -n 2000 line && [ "$count" -lt 50 ]; do
    count=$((count + 1))
    [[ $line != *[$'\001'-$'\010'$'\016'-$'\037']* ]] || return 0
    [[ ! $line =~ ^[[:space:]]*(module_config|scheduler_conf) ]] || what="It is a text that has ${BASH_REMATCH[1]}: a configuration file."
  done <"$1"
  if ! LC_ALL=C head -c 2000 -- "$1" | LC_ALL=C tr -d '\0' | cmp -s - <(head -c 2000 -- "$1"); then
    return 0
  fi
  echo "$what"
}

# A line of a text with a mark below a column, where both can be shown.
show_place() { # the file, the line and the column, in bytes from 1
  local LC_ALL=C line
  [ -f "$1" ] && [ -r "$1" ] && [ "$2" -le 100000 ] || return 0
  line=$(sed -n "$2{p;q}" -- "$1" 2>/dev/null) || return 0
  line=${line//$'\t'/ }
  [[ ${#line} -le 160 && $3 -le $((${#line} + 1)) && $line != *[![:print:]]* ]] || return 0
  printf '      %s\n      %*s\n' "$line" "$3" '^'
}

# The first bytes of a file, in hexadecimal digits.
begins_with() { # the file, and the digits
  [ -f "$1" ] && [ -r "$1" ] && [ "$(od -An -v -tx1 -N $((${#2} / 2)) -- "$1" 2>/dev/null | tr -d ' \n')" = "$2" ]
}

# Looks at a DAG file, as plainly as a reader does: its components, in the order in which the program numbers them, with their names, classes
# and files. Ends with 1 where the file is too long for that, or isn't closed.
LONGEST_DAG=65536
TOKENS="#.*|\"([^\"\\\\]|\\\\.)*\"|'([^'\\\\]|\\\\.)*'|[A-Za-z_][A-Za-z_0-9]*|[][{}<>]"
look_at_dag() { # the file
  local token depth=0 field='' text='' is_text=no timer_names=() timer_classes=() timer_files=()
  local -a path=() lists=()
  names=()
  classes=()
  files=()
  [[ -f $1 && -r $1 && $(stat -L -c %s -- "$1") -le $LONGEST_DAG ]] || return 1
  while IFS= read -r token; do
    take_token
  done < <(LC_ALL=C grep -aoE -e "$TOKENS" -- "$1")
  end_of_text
  names+=("${timer_names[@]}")
  classes+=("${timer_classes[@]}")
  files+=("${timer_files[@]}")
  [ "$depth" -eq 0 ]
}

# Takes one token of a DAG file.
take_token() {
  case $token in
    '#'*) ;;
    [\"\']*)
      text+=${token:1:-1}
      is_text=yes
      ;;
    *)
      end_of_text
      case $token in
        [A-Za-z_]*) field=$token ;;
        *) take_mark "$token" ;;
      esac
      ;;
  esac
}

take_mark() { # the mark
  case $1 in
    '{' | '<')
      path[depth]=${field:-${lists[depth]-}}
      depth=$((depth + 1))
      lists[depth]=
      field=
      begin_message
      ;;
    '}' | '>')
      [ "$depth" -eq 0 ] || depth=$((depth - 1))
      field=
      ;;
    '[')
      lists[depth]=$field
      field=
      ;;
    ']')
      lists[depth]=
      field=
      ;;
  esac
}

# The message that has just been opened: a component has a row of its own.
begin_message() {
  case "$depth ${path[*]:0:depth}" in
    '2 module_config components')
      names+=('')
      classes+=('')
      files+=('')
      ;;
    '2 module_config timer_components')
      timer_names+=('')
      timer_classes+=('')
      timer_files+=('')
      ;;
  esac
}

# The value of a field that is a text; pieces that follow one another are one text.
end_of_text() {
  [ "$is_text" = yes ] || return 0
  text=${text@E}
  case "$depth ${path[*]:0:depth} $field" in
    '2 module_config components class_name') classes[${#classes[@]}-1]=$text ;;
    '3 module_config components config name') names[${#names[@]}-1]=$text ;;
    '3 module_config components config config_file_path') files[${#files[@]}-1]=$text ;;
    '2 module_config timer_components class_name') timer_classes[${#timer_classes[@]}-1]=$text ;;
    '3 module_config timer_components config name') timer_names[${#timer_names[@]}-1]=$text ;;
    '3 module_config timer_components config config_file_path') timer_files[${#timer_files[@]}-1]=$text ;;
  esac
  text=
  is_text=no
}
