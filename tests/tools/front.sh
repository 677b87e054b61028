# shellcheck shell=bash disable=SC2154
# A part of tests/tools.sh, which reads it: the front before the program. Most of it is tried with a program that stands in for the proved
# one and says what a row has it say. Where the proved program is there, the rows are tried with it too.

USAGE='cyber: the words are not of a known form'
# Arguments that are right.
PLAY='--dag d.dag --record in.rec --out out.rec --trace trace'
declare -A RIGHT=([PLAY]=$PLAY [VERIFY]=$PLAY [PASS]='in.rec out.rec trace /in /out' [SPLIT]='in.rec out.rec')

# Makes a folder with the front, as it is installed, before a program.
install_front() { # the folder, and the program
  mkdir -p "$1/crates/cyber/out"
  cp -r "$top/cyber" "$top/front" "$1/"
  cp "$2" "$1/crates/cyber/out/cyber"
  chmod 755 "$1/crates/cyber/out/cyber"
}

# A program that writes down its arguments, prints $OUTPUT and then $LINE on standard error, and ends with $STATUS.
write_stub() { # its name
  cat >"$1" <<'STUB'
#!/usr/bin/env bash
printf '%s\0' "$@" >"$ARGUMENTS"
[ -z "${OUTPUT-}" ] || printf '%b' "$OUTPUT"
[ -z "${LINE-}" ] || printf '%b\n' "$LINE" >&2
[ -z "${RUN-}" ] || eval "$RUN"
exit "${STATUS:-0}"
STUB
  chmod 755 "$1"
}

# Runs the front before the stub, which prints a line and ends with a status.
fronted() { # the status, the line, and the arguments
  rm -f arguments
  STATUS=$1 LINE=$2 try "$1" "$front/cyber" "${@:3}"
}

# Looks that standard error is exactly the lines of a text, where these are many, or that it begins with them.
begins() { # the file, and its first line
  [ "$(head -n 1 "$1" | tr -d '\0')" = "$2" ]
  count $? "$name: $1 begins with '$(head -n 1 "$1" | head -c 200)', not '$2'"
}

# Looks that the sentences below the line, joined to one line, have a text.
explains() { # the text
  [[ "$(tail -n +2 err | tr -d '\0' | sed 's/^ *//' | tr '\n' ' ')" == *"$1"* ]]
  count $? "$name: standard error lacks '$1': $(head -c 600 err)"
}

helps() {
  local words command
  begin 'help and the version are answered at once'
  for words in --help -h help; do
    try 0 "$front/cyber" $words
    begins out 'cyber replays recorded messages through the components of a DAG file.'
    [ ! -s err ] && [ ! -e arguments ]
    count $? "$name: $words runs the program or prints on standard error"
  done
  for command in play verify pass check info make recover split; do
    for words in "help $command" "$command --help" "$command -h" "--help $command" "$command a b --help"; do
      # shellcheck disable=SC2086
      try 0 "$front/cyber" $words
      [[ "$(head -n 1 out)" == "  cyber $command "* && ! -s err && ! -e arguments ]]
      count $? "$name: '$words' prints '$(head -n 1 out)'"
    done
    # docs/COMMANDS.md has the same calls.
    [ "$(sed '/^$/q' out | tr -s ' \n' ' ')" = " $(calls_of "$command") " ]
    count $? "$name: docs/COMMANDS.md calls $command otherwise: $(calls_of "$command")"
  done
  try 0 "$front/cyber" --version
  says out 'cyber, commit unknown, unknown, written for rattle-kit-.* logic [0-9a-f]{16}'
  try 4 sh -c "exec '$front/cyber' --help >/dev/full"
}

# How docs/COMMANDS.md calls a command, in one line.
calls_of() { # the command
  sed -n '/^    cyber /,/^$/p' "$top/docs/COMMANDS.md" | tr -s ' \n' ' ' | sed 's/ cyber /\n&/g' | sed -n "s/^ \(cyber $1 .*[^ ]\) *$/\1/p"
}

passes_through() {
  local status words
  begin 'arguments, output and status pass through unchanged'
  words=(info $'a b\n' '' '*' $'\xff\xfe' "it's" '$(id)' '-x' 'é' '\n' '"')
  fronted 0 '' "${words[@]}"
  printf '%s\0' "${words[@]}" | cmp -s - arguments
  count $? "$name: the arguments are others"
  for status in 0 1 2 3 4 5 6; do
    OUTPUT='a\0b\nc' fronted "$status" 'cyber: x: y' info x
    printf 'a\0b\nc' | cmp -s - out
    count $? "$name: with status $status standard output is another one"
    begins err 'cyber: x: y'
  done
  OUTPUT='done\n' fronted 0 '' info x
  [ ! -s err ]
  count $? "$name: with status 0 it prints on standard error: $(cat err)"
  LINE='cyber: a\0b: y' STATUS=3 try 3 "$front/cyber" info x 2>/dev/null
  printf 'cyber: a\0b: y\n' | cmp -s - <(head -n 1 err)
  count $? "$name: a line with a zero byte is changed"
  LINE='cyber: a\xc3\0\xff: y' STATUS=3 try 3 "$front/cyber" info x 2>/dev/null
  printf 'cyber: a\xc3\0\xff: y\n' | cmp -s - <(head -n 1 err)
  count $? "$name: a line that is no text is changed"
  RUN='cat' fronted 0 '' info x <<<'from standard input'
  says out 'from standard input'
  mkdir elsewhere
  ln -s "$front/cyber" elsewhere/link
  RUN='pwd; echo "$GLIBC_TUNABLES"; grep SigIgn /proc/$$/status' fronted 0 '' info x
  says out "$PWD"
  says out 'glibc.malloc.hugetlb=1:glibc.malloc.mmap_max=0:glibc.malloc.top_pad=67108864'
  [ $((0x$(sed -n 's/SigIgn:\t//p' out) >> 24 & 1)) -eq 1 ]
  count $? "$name: SIGXFSZ isn't ignored"
  RUN='echo "$GLIBC_TUNABLES"' GLIBC_TUNABLES=glibc.malloc.hugetlb=0 try 0 elsewhere/link info x
  says out 'glibc.malloc.hugetlb=0'
}

# A line that can't be printed is status 4, as of the program itself.
meets_odd_streams() {
  begin 'streams that are closed or full'
  LINE=x STATUS=3 try 4 sh -c "exec '$front/cyber' info x 2>/dev/full"
  LINE=x STATUS=3 try 4 sh -c "exec '$front/cyber' info x 2>&-"
  RUN='echo x 2>/dev/null || exit 4' try 4 sh -c "exec '$front/cyber' info x >&-"
  try 0 sh -c "exec '$front/cyber' info x <&- 2>&-"
  mkfifo pipe
  exec 7<>pipe 8>pipe 7>&-
  rm pipe
  LINE=x STATUS=3 try 4 sh -c "exec '$front/cyber' info x 2>&8"
  exec 8>&-
}

# A signal to the front ends the program, and one that ends the program ends the front.
hands_signals_on() {
  local signal front_id
  begin 'signals'
  for signal in TERM HUP INT QUIT; do
    rm -f running
    RUN='echo $$ >running; exec sleep 30' env --default-signal="$signal" "$front/cyber" info x >out 2>err &
    front_id=$!
    await_text running
    kill -s "$signal" "$front_id"
    wait "$front_id" 2>/dev/null
    [ $? -eq $((128 + $(kill -l "$signal"))) ] && ! kill -0 "$(cat running)" 2>/dev/null
    count $? "$name: after SIG$signal the program goes on, or the front ended otherwise"
  done
  RUN='kill -KILL $$' try 137 "$front/cyber" info x 2>/dev/null
  says err '  The program was ended by the signal KILL\. .*'
}

# Each row of tests/tools/mistakes.txt.
explains_mistakes() {
  local row sentence
  local -a words
  begin 'of arguments that ask for no command it says what is wrong'
  while IFS= read -r row; do
    [[ $row != '#'* ]] || continue
    sentence=${row##*=> }
    row=${row%=> *}
    for each in "${!RIGHT[@]}"; do
      row=${row//"$each"/"${RIGHT[$each]}"}
    done
    eval "words=($row)"
    fronted 2 "$USAGE" "${words[@]}"
    begins err "$USAGE"
    explains "$sentence"
    [ ! -x "$program" ] || { "$program" "${words[@]}" >out 2>err; [ $? -eq 2 ]; }
    count $? "$name: the program takes '$row'"
  done <"$top/tests/tools/mistakes.txt"
}

# Makes a DAG file of one component, its component file and a record, all of which `play` accepts.
write_files() {
  echo 'module_config { components { class_name: "PassComponent" config { name: "p" config_file_path: "p.conf"
    readers { channel: "/in" } } } }' >d.dag
  echo 'out: "/out"' >p.conf
  cp "$top/examples/pass/one.rec" in.rec
}

# A refusal: what is done to the files, the arguments, the status, the program's line, and what has to stand below it.
meets_refusal() { # these
  local -a words
  write_files
  eval "$1"
  eval "words=(${2//FILES/$PLAY})"
  fronted "$3" "${4//\\/\\\\}" "${words[@]}"
  begins err "$4"
  explains "$5"
  if [ -x "$program" ]; then
    "$program" "${words[@]}" >/dev/null 2>err
    [ "$?" -eq "$3" ] && [ "$(cat err)" = "$4" ]
    count $? "$name: the program says '$(cat err)', not '$4'"
  fi
  chmod -R u+rwx .
  find . -mindepth 1 -maxdepth 1 ! -name arguments -exec rm -rf {} +
}

explains_refusals() {
  local change words status line text
  begin 'of what is refused it says what that means'
  while IFS='|' read -r change words status line text; do
    [[ -z $change || $change == '#'* ]] || meets_refusal "$change" "$words" "$status" "cyber: $line" "$text"
  done <"$top/tests/tools/explained.txt"
  try 0 python3 "$top/tests/tools/refusal_table.py"
}

# What a look at a file tells needs a file that the program doesn't look at, or a user that isn't root.
finds_causes() {
  local user=()
  begin 'where a file can not be read or written it says why'
  [ "$(id -u)" -ne 0 ] || user=(setpriv --reuid=65534 --regid=65534 --clear-groups)
  chmod 711 "$work" .
  cp -r "$front" front
  write_stub front/crates/cyber/out/cyber
  chmod -R a+rX front
  export ARGUMENTS=/dev/null
  write_files
  chmod 000 in.rec
  mkdir -m 000 closed
  mkdir -m 555 locked
  mkdir open
  chmod 777 open
  : >open/file
  chmod 444 open/file
  while IFS='|' read -r words file text; do
    # shellcheck disable=SC2086
    LINE="cyber: $file: the store failed" STATUS=3 try 3 "${user[@]}" front/cyber $words
    explains "$text"
  done <<'ROWS'
info in.rec|in.rec|Reading 'in.rec' failed. You may not read it.
info closed/in.rec|closed/in.rec|You may not look into the folder 'closed'.
recover d.dag locked/out.rec|locked/out.rec|Writing 'locked/out.rec' failed. You may not make a file in the folder 'locked/'.
recover d.dag open/file|open/file|You may not write it.
recover d.dag open/new|open/new|It can be written now.
info d.dag|d.dag|It can be opened now.
ROWS
  head -c 1024 /dev/zero >open/long
  LINE='cyber: open/long: the store failed' STATUS=3 try 3 bash -c 'ulimit -f 1; exec front/cyber recover d.dag open/long'
  explains 'A file may have at most 1024 bytes here (ulimit -f).'
  export ARGUMENTS=arguments
}

# Random arguments: the front finds a fault in them just where the program does.
agrees_with_the_program() {
  begin 'the front finds a fault in the arguments where the program does, and nowhere else'
  if [ ! -x "$program" ]; then
    skip 'random arguments' "no program at $program"
    return
  fi
  try 0 python3 "$top/tests/tools/random_arguments.py" "$program" "$top" 500 1
}

# A kit that stands in for the real one: its `rt try` runs a stub, and its `rt ci` builds one.
write_kit() { # its folder
  mkdir -p "$1"
  cat >"$1/rt" <<'KIT'
#!/usr/bin/env bash
if [[ $1 != version && -n ${SLEEPS-} ]]; then
  echo $$ >"$SLEEPS"
  exec sleep 30
fi
case $1 in
  version) echo 'rattle-kit-0 logic 0000000000000000' ;;
  ci)
    mkdir -p crates/cyber/out
    cp "$STUB" crates/cyber/out/cyber
    echo 'rt: cyber proved'
    [ -z "${FAILS-}" ]
    ;;
  try)
    printf '%s\n' "$@" >"$ARGUMENTS"
    pwd >"$ARGUMENTS.folder"
    [ -z "${OUTPUT-}" ] || printf '%b' "$OUTPUT"
    [ -z "${LINE-}" ] || printf '%b\n' "$LINE" >&2
    [ -z "${FAILS-}" ] || { echo 'run=none proved=no' >&2 && exit 2; }
    printf '%s\n' "checked: ended status=${STATUS:-0}" 'races: not looked for' \
      "run=ended status=${STATUS:-0} runners=1 races=unchecked proved=no" >&2
    exit "${STATUS:-0}"
    ;;
esac
KIT
  chmod 755 "$1/rt"
}

# Makes a repository in which nothing is built.
copy_repository() { # the folder
  mkdir -p "$1/crates/cyber/src"
  cp -r "$top/cyber" "$top/front" "$top/HANDLES" "$1/"
  echo 'cyber:' >"$1/crates.txt"
  cp "$top/crates/cyber/src/main.rt" "$1/crates/cyber/src/"
}

# Runs `./cyber` of such a repository, and compares the status and the first line on standard error.
looks() { # the status, the line, and the arguments
  PATH=$PWD/kit:$PATH try "$1" repository/cyber "${@:3}"
  begins err "$2"
}

QUICK='cyber: the program is not built yet: this is a quick look. The sources are compiled unproved, with checks, which takes a minute or two.'
UNPROVED='cyber: this was the unproved program, with checks.'

looks_quickly() {
  begin 'where the program is not built, arguments are run by rt try'
  export ARGUMENTS=$PWD/arguments
  copy_repository repository
  write_kit kit
  write_files
  OUTPUT='done: x\n' looks 0 "$QUICK" play --serial --dag d.dag --record=in.rec --out out.rec --trace "$PWD/trace" --stop p@1
  says out 'done: x'
  says err "$UNPROVED"
  [ "$(wc -l <out)" -eq 1 ] && [ "$(wc -l <err)" -eq 3 ]
  count $? "$name: the lines of rt are printed, too: $(cat out err)"
  printf '%s\n' try --data "d.dag=$PWD/d.dag" --data "in.rec=$PWD/in.rec" --data "p.conf=$PWD/p.conf" -- play --serial --dag d.dag \
    --record=in.rec --out "$PWD/./out.rec" --trace "$PWD/trace" --stop p@1 | cmp -s - arguments
  count $? "$name: rt is given $(tr '\n' ' ' <arguments)"
  says arguments.folder "$PWD/repository/crates/cyber"
  LINE="cyber: $PWD/./out.rec: the store failed" STATUS=3 looks 3 "$QUICK" recover in.rec out.rec
  says err 'cyber: out.rec: the store failed'
  explains "Writing 'out.rec' failed."
  looks 0 "$QUICK" pass in.rec out trace /in out
  [ "$(tail -n 5 arguments | tr '\n' ' ')" = "in.rec $PWD/./out $PWD/./trace /in out " ]
  count $? "$name: pass is given $(tail -n 5 arguments | tr '\n' ' ')"
  LINE="cyber: $PWD/none/m.dag: the store failed" STATUS=3 looks 3 "$QUICK" make 4 none/m
  says err 'cyber: none/m.dag: the store failed'
  OUTPUT="file $PWD/./../$(basename "$PWD")/in.rec bytes 5\n" looks 0 "$QUICK" info "../$(basename "$PWD")/in.rec"
  says out "file ../$(basename "$PWD")/in.rec bytes 5"
  printf 'config_file_path: "%s/m.dag"\n' "$PWD" >m.dag
  looks 0 "$QUICK" make 4 m
  [ "$(tail -n 1 arguments) $(cat m.dag)" = "$PWD/m config_file_path: \"m.dag\"" ]
  count $? "$name: make is given $(tail -n 1 arguments), and its DAG file has $(cat m.dag)"
  FAILS=yes looks 126 "$QUICK" info in.rec
  says err 'cyber: the quick look came to no answer. rt try said:'
  refuses_quick_looks
  weighs_each_crate
  builds_and_is_stale
}

refuses_quick_looks() {
  local small='cyber: the program is not built yet, and the quick look can.t run this:'
  begin 'what a quick look can not do is refused, and plain answers come at once'
  copy_repository repository
  write_kit kit
  write_files
  looks 2 "$USAGE" paly
  explains 'Did you mean play?'
  looks 3 'cyber: none: the store failed' info none
  explains 'There is no such file.'
  head -c 300000 /dev/zero >large.rec
  try_and_say 126 "$small it reads at most 262144 bytes, and these files have 300000" info large.rec
  try_and_say 126 "$small it makes at most 15000 messages" make 15001 m
  try_and_say 126 "$small '/dev/null' is no regular file" info /dev/null
  : >../p.conf
  sed -i 's,p.conf,../p.conf,' d.dag
  try_and_say 126 "$small it can't copy the file '../p.conf' of the DAG file, .*" check --dag d.dag
  try 126 env PATH=/usr/bin:/bin repository/cyber info in.rec
  says err 'cyber: the program is not built yet, and there is no command rt'
  try 126 env PATH=/usr/bin:/bin repository/cyber --build
  says err 'cyber: the program is not built yet, and there is no command rt'
  try 0 env PATH=/usr/bin:/bin repository/cyber --version
  says out 'The program is not built: ./cyber --build builds it.'
}

try_and_say() { # the status, the first line, and the arguments
  PATH=$PWD/kit:$PATH try "$1" repository/cyber "${@:3}"
  says err "$2"
  says err '  ./cyber --build proves and builds the program, .*'
}

# A signal to the front ends what the kit is at.
stops_the_kit() { # the arguments
  local front_id
  rm -f running
  SLEEPS=$PWD/running PATH=$PWD/kit:$PATH repository/cyber "$@" >out 2>err &
  front_id=$!
  await_text running
  kill -s TERM "$front_id"
  wait "$front_id" 2>/dev/null
  [ $? -eq 143 ] && ! kill -0 "$(cat running)" 2>/dev/null
  count $? "$name: after SIGTERM the kit goes on, or the front ended otherwise"
}

# Waits until a file has a text, for some seconds at most.
await_text() { # the file
  for _ in {1..200}; do
    [ ! -s "$1" ] || return
    sleep 0.02
  done
}

# Looks that front/weights.txt has one line for each crate of crates.txt, in the same order: a name and a count of seconds.
weighs_each_crate() {
  begin 'the progress of a build has a weight for each crate'
  sed 's/#.*//; s/[ :].*//; /^$/d' "$top/crates.txt" >crates
  sed -n -E 's/^([a-z_]+) [1-9][0-9]*$/\1/p' "$top/front/weights.txt" | cmp -s - crates
  count $? "$name: front/weights.txt has other crates than crates.txt: $(grep -v '^#' "$top/front/weights.txt" | tr '\n' ' ')"
}

builds_and_is_stale() {
  begin 'the program is built when that is asked for, and not run when its sources are newer'
  copy_repository repository
  write_kit kit
  write_files
  write_stub stub
  export STUB=$PWD/stub
  FAILS=yes looks 126 'cyber: proving and building the program, which takes half an hour or more the first time' --build
  says err 'cyber: the build failed; all it said is in repository/.build.log'
  [ ! -e repository/crates/cyber/out/cyber ]
  count $? "$name: a program is there whose build failed"
  stops_the_kit --build
  stops_the_kit info in.rec
  [ ! -e repository/crates/cyber/out/cyber ]
  count $? "$name: a program is there whose build was stopped"
  looks 0 'cyber: proving and building the program, which takes half an hour or more the first time' --build
  says err 'cyber: the kit here is rattle-kit-0 logic 0*; the sources were proved with rattle-kit-.*'
  says err 'cyber: [0-9]+ of [0-9]+ crates proved, [0-9]+ % of the work; 0:[0-9]+ so far'
  looks 0 'cyber: the program is built, and its sources have not changed since' --build
  OUTPUT='proved\n' try 0 repository/cyber info in.rec
  says out proved
  touch repository/crates/cyber/src/main.rt
  OUTPUT='unproved\n' looks 0 "${QUICK/is not built yet/is older than its sources (crates\/cyber\/src\/main.rt)}" info in.rec
  says out unproved
  touch -d yesterday repository/crates.txt repository/crates/cyber/src/main.rt
  try 0 repository/cyber info in.rec
  [ ! -s err ]
  count $? "$name: it says $(cat err)"
}

front() {
  local front
  begin 'front'
  front=$PWD/installed
  write_stub stub
  install_front "$front" stub
  export ARGUMENTS=arguments
  helps
  passes_through
  meets_odd_streams
  hands_signals_on
  explains_mistakes
  explains_refusals
  finds_causes
  agrees_with_the_program
  looks_quickly
}
