# For the measuring scripts here.

# As the launcher has it: one piece of large pages for the room that a run reserves.
export GLIBC_TUNABLES=${GLIBC_TUNABLES:-glibc.malloc.hugetlb=1:glibc.malloc.mmap_max=0:glibc.malloc.top_pad=67108864}

# Copies a crate and those below it, unless it is there or is the kit's.
add_crate() { # the folder of this repository, and the crate
  local top=$1 crate=$2 below
  if [ -d "crates/$crate" ] || [ ! -d "$top/crates/$crate" ]; then
    return
  fi
  cp -r "$top/crates/$crate" "crates/$crate"
  grep "^$crate[ :]" "$top/crates.txt" >>crates.txt
  for below in $(grep "^$crate[ :]" "$top/crates.txt" | cut -d: -f2); do
    add_crate "$top" "$below"
  done
}

# Enters a repository of its own, in the folder `work`, for a program that is measured, over copies of these crates and those below.
repository() { # the folder of this repository, the program, and the crates that it uses
  local top=$1 program=$2 crate
  shift 2
  mkdir -p "$work/repository/crates/$program/src"
  cd "$work/repository"
  for crate in "$@"; do
    add_crate "$top" "$crate"
  done
  echo "$program: $*" >>crates.txt
}

# The best time of nine runs, with the processor time of that run in user mode and in the kernel, and the most memory that any run took.
measure() { # a name, the bytes that are read and written, and the command
  local name=$1 bytes=$2
  shift 2
  python3 - "$name" "$bytes" "$@" <<'P'
import resource, subprocess, sys, time
name, count, command = sys.argv[1], int(sys.argv[2]), sys.argv[3:]
runs = []
for _ in range(9):
    before = resource.getrusage(resource.RUSAGE_CHILDREN)
    began = time.perf_counter()
    subprocess.run(command, check=True, stdout=subprocess.DEVNULL)
    took = time.perf_counter() - began
    after = resource.getrusage(resource.RUSAGE_CHILDREN)
    runs.append((took, after.ru_utime - before.ru_utime, after.ru_stime - before.ru_stime))
best, user, kernel = min(runs)
peak = after.ru_maxrss / 1024
print(
    f"{name}: {best * 1000:.1f} ms (user {user * 1000:.0f}, kernel {kernel * 1000:.0f}), peak {peak:.1f} MB, "
    f"{count / best / 1e6:.1f} MB/s read and written"
)
P
}
