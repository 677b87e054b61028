# Completions of `cyber` for bash: its commands, their options, and files where files are named.
_cyber() {
  local word=${COMP_WORDS[COMP_CWORD]} before=${COMP_WORDS[COMP_CWORD - 1]} options=
  COMPREPLY=()
  if [ "$COMP_CWORD" -eq 1 ]; then
    local commands='play verify pass check info make recover split merge help'
    [[ $word != -* ]] || commands='--help --version'
    mapfile -t COMPREPLY < <(compgen -W "$commands" -- "$word")
    return
  fi
  case ${COMP_WORDS[1]} in
    play) options='--serial --dag --record --out --trace --sched --channels --drop --begin --end --stop' ;;
    verify) options='--dag --record --out --trace --channels --drop --begin --end --stop' ;;
    check) options='--dag --sched' ;;
    help)
      [ "$COMP_CWORD" -gt 2 ] || mapfile -t COMPREPLY < <(compgen -W 'play verify pass check info make recover split merge' -- "$word")
      return
      ;;
    split) [ "$COMP_CWORD" -le 3 ] || options='--channels --drop --begin --end' ;;
  esac
  case $before in
    --channels | --drop | --begin | --end | --stop) return ;;
  esac
  if [[ $word == -* ]]; then
    mapfile -t COMPREPLY < <(compgen -W "$options" -- "$word")
  elif [ "${COMP_WORDS[1]}" = make ] && [ "$COMP_CWORD" -eq 2 ]; then
    return
  else
    compopt -o filenames 2>/dev/null
    mapfile -t COMPREPLY < <(compgen -f -- "$word")
  fi
}
complete -F _cyber cyber
