#compdef cyber
# Completions of `cyber` for zsh: its commands, their options, and files where files are named.
local -a commands
commands=(
  'play:play a record through the components of a DAG file'
  'verify:say whether a trace and a record are those of a lawful run'
  'pass:play a record through one component that passes a channel on'
  'check:print what configuration files say'
  'info:print what a record is'
  'make:make the files of a play and play them'
  'recover:make a whole record of what stands before the first fault of a file'
  'split:write a record of some messages of another one'
  'merge:write one record of all messages of several'
  'help:say how a command is called'
)
if (( CURRENT == 2 )); then
  _describe command commands
  return
fi
local command=$words[2]
shift words
(( CURRENT-- ))
case $command in
  help) _arguments '1:command:(play verify pass check info make recover split merge)' ;;
  play)
    _arguments '--serial[on one thread]' '--dag=[the DAG file]:file:_files' '--record=[the record that is played]:file:_files' \
      '--out=[the record that is written]:file:_files' '--trace=[the trace that is written]:file:_files' \
      '--sched=[a scheduler file]:file:_files' '--channels=[only these channels]:channels:' '--drop=[none of these channels]:channels:' \
      '--begin=[from this time on]:nanoseconds:' '--end=[up to this time]:nanoseconds:' \
      '--stop=[stop a component at a time]:component@nanoseconds:'
    ;;
  verify)
    _arguments '--dag=[the DAG file]:file:_files' '--record=[the record that was played]:file:_files' \
      '--out=[the record that was written]:file:_files' '--trace=[the trace that was written]:file:_files' \
      '--channels=[only these channels]:channels:' '--drop=[none of these channels]:channels:' \
      '--begin=[from this time on]:nanoseconds:' '--end=[up to this time]:nanoseconds:' \
      '--stop=[the stop of the play]:component@nanoseconds:'
    ;;
  check) _arguments '--dag=[the DAG file]:file:_files' '--sched=[a scheduler file]:file:_files' ;;
  pass) _arguments '1:record:_files' '2:record that is written:_files' '3:trace that is written:_files' '4:channel:' '5:channel:' ;;
  info) _arguments '1:record:_files' ;;
  make) _arguments '1:how many messages:' '2:prefix of the files:_files' ;;
  recover) _arguments '1:file:_files' '2:record that is written:_files' ;;
  split)
    _arguments '1:record:_files' '2:record that is written:_files' '--channels=[only these channels]:channels:' \
      '--drop=[none of these channels]:channels:' '--begin=[from this time on]:nanoseconds:' '--end=[up to this time]:nanoseconds:'
    ;;
  merge) _arguments '1:records with commas between them:_sequence _files' '2:record that is written:_files' ;;
esac
