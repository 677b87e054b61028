#!/usr/bin/env bash
# Sets up a Slurm of one node, this machine, runs a command there, and stops what it started. Usage: tests/tools/slurm.sh COMMAND...
# It needs `slurmctld`, `slurmd` and `munged` (of Debian's slurm-wlm and munge), and root. Everything stands in a temporary folder
# and listens on this machine alone; a Slurm that is set up otherwise is left as it is.
set -euo pipefail
PATH=$PATH:/usr/sbin
folder=$(mktemp -d)
started=()

# Stops the jobs that are left, which would go on without the daemons, and then these.
# shellcheck disable=SC2317
stop() {
  local each end=$((SECONDS + 20))
  if [ "${#started[@]}" -eq 3 ]; then
    timeout 10 scancel --full --user="$(id -un)" 2>/dev/null || true
    while [ "$SECONDS" -lt "$end" ] && timeout 10 squeue --noheader 2>/dev/null | grep -q .; do
      sleep 0.5
    done
  fi
  for each in "${started[@]}"; do
    kill "$each" 2>/dev/null || true
  done
  for each in "${started[@]}"; do
    wait "$each" 2>/dev/null || true
  done
  rm -rf "$folder"
}
trap stop EXIT

# Starts a daemon in the foreground of a job of its own.
start() { # its log, and the command
  "${@:2}" >"$folder/$1.out" 2>&1 &
  started+=($!)
}

fail() {
  echo "slurm.sh: $1" >&2
  tail -n 5 "$folder"/*.log "$folder"/*.out >&2
  exit 1
}

# Waits until a command does well.
await() { # how many seconds, what for, and the command
  local end=$((SECONDS + $1))
  until "${@:3}" >/dev/null 2>&1; do
    [ "$SECONDS" -lt "$end" ] || fail "no $2"
    sleep 0.5
  done
}

# shellcheck disable=SC2317
is_idle() {
  sinfo --noheader --format=%T | grep -qx idle
}

write_configuration() {
  local memory name
  name=$(hostname -s)
  memory=$(awk '/^MemTotal/ { print int($2 / 1024 * 0.9) }' /proc/meminfo)
  mkdir "$folder/state" "$folder/spool"
  cat >"$folder/slurm.conf" <<CONF
ClusterName=one
SlurmctldHost=$name(127.0.0.1)
SlurmUser=root
SlurmctldPort=$1
SlurmdPort=$2
AuthType=auth/munge
AuthInfo=socket=$folder/munge.socket
CredType=cred/munge
StateSaveLocation=$folder/state
SlurmdSpoolDir=$folder/spool
SlurmctldPidFile=$folder/slurmctld.pid
SlurmdPidFile=$folder/slurmd.pid
SlurmctldLogFile=$folder/slurmctld.log
SlurmdLogFile=$folder/slurmd.log
ProctrackType=proctrack/linuxproc
TaskPlugin=task/none
JobAcctGatherType=jobacct_gather/none
AccountingStorageType=accounting_storage/none
SelectType=select/cons_tres
SelectTypeParameters=CR_CPU_Memory
MpiDefault=none
ReturnToService=2
MinJobAge=600
SchedulerParameters=sched_interval=2,bf_interval=2
NodeName=$name NodeAddr=127.0.0.1 CPUs=$(nproc) RealMemory=$memory State=UNKNOWN
PartitionName=all Nodes=$name Default=YES MaxTime=INFINITE State=UP
CONF
  : >"$folder/cgroup.conf"
}

free_port() {
  python3 -c 'import socket; it = socket.socket(); it.bind(("127.0.0.1", 0)); print(it.getsockname()[1])'
}

[ "$(id -u)" -eq 0 ] || fail 'this needs root'
chmod 755 "$folder"
head -c 1024 /dev/urandom >"$folder/munge.key"
chmod 400 "$folder/munge.key"
write_configuration "$(free_port)" "$(free_port)"
export SLURM_CONF=$folder/slurm.conf
start munged munged --foreground --force --key-file="$folder/munge.key" --socket="$folder/munge.socket" \
  --pid-file="$folder/munge.pid" --log-file="$folder/munge.log" --seed-file="$folder/munge.seed"
await 20 munge munge --no-input --socket="$folder/munge.socket"
start slurmctld slurmctld -D -f "$SLURM_CONF"
start slurmd slurmd -D -f "$SLURM_CONF" -N "$(hostname -s)"
await 60 'idle node' is_idle
status=0
"$@" || status=$?
exit "$status"
