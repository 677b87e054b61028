#!/usr/bin/env bash
# Packs the proved program: a tarball and, where there is dpkg-deb, a Debian package, with the front before it, the tools and the batch, the
# manual page, the completions of two shells, the examples and the file PROVED. Usage: release/make.sh [--out DIR] [--gate LOG] [PROGRAM]
# PROGRAM is by default what the gate left in this repository, DIR is release/out, and LOG what the gate printed: a gate that passed, of
# the commit that is checked out and of this program.
set -euo pipefail
top=$(cd "$(dirname "$0")/.." && pwd)
out=$top/release/out
gate=
program=$top/crates/cyber/out/cyber
name=zektrob

fail() {
  echo "release/make.sh: $1" >&2
  exit 1
}

while [ $# -gt 0 ]; do
  [[ $# -gt 1 || ! $1 =~ ^--(out|gate)$ ]] || fail "$1 takes a value"
  case $1 in
    --help) sed -n '2,/^set/s/^# //p' "$0"; exit ;;
    --out) out=$2; shift 2 ;;
    --gate) gate=$2; shift 2 ;;
    -*) fail "no such option: $1" ;;
    *) program=$1; shift ;;
  esac
done
[[ -f $program && -x $program ]] || fail "no program at $program"
state=$("$top/release/gate.sh" "$program")
commit=${state#commit }
commit=${commit%, program *}
[[ $commit =~ ^[0-9a-f]{40} ]] || fail 'this is no clone with a commit'

# A log tells of a gate that passed where `rt ci` says so, where its last line is the gate's own, and where nothing failed; it is of this
# commit and of this program where the gate says so. What measured the gate may have printed its times behind that.
said=
proofs=
if [ -n "$gate" ]; then
  [[ -f $gate && -r $gate ]] || fail "no log at $gate"
  faults=$(grep -m 1 -E '^rt: FAILED|[0-9]+ passed, [1-9][0-9]* failed(, [0-9]+ skipped)?$|, [1-9][0-9]* faults$' "$gate" || true)
  [ -z "$faults" ] || fail "the gate failed: $faults"
  proofs=$(grep '^rt: ok; ' "$gate" | tail -n 1 || true)
  [ -n "$proofs" ] || fail 'the gate did not come to its end: no line says that rt ci passed'
  said=$(sed -E '/^$|^(real|user|sys)[[:space:]]/d' "$gate" | tail -n 1)
  [[ $said =~ ^gate:\ [0-9]+\ passed,\ 0\ failed(,\ [0-9]+\ skipped)?$ ]] || fail "the gate did not come to its end: its last line is '$said'"
  of=$(grep -E '^commit .*, program [0-9a-f]{64}$' "$gate" | tail -n 1 || true)
  [ "$of" = "$state" ] || fail "the gate was of '${of:-nothing that it names}', and this is $state"
fi

date=$(git -C "$top" show -s --format=%ct HEAD)
version=0~$(date -u -d "@$date" +%Y%m%d).${commit:0:8}
machine=$(uname -m)
stage=$(mktemp -d)
trap 'rm -rf "$stage"' EXIT
# It is the root of the package, whose mode a package hands on to the folder into which it is unpacked.
chmod 755 "$stage"
doc=$stage/usr/share/doc/$name
lib=$stage/usr/lib/$name

# The sum of the toolchain's logic that the log of the gate names, or nothing.
logic_of_gate() {
  [ -z "$gate" ] || sed -n 's/.*logic=proved .*sum=\([0-9a-f]*\).*/\1/p' "$gate" | sort -u
}

# What `cyber --version` prints.
write_version() {
  local logic
  logic=$(logic_of_gate)
  echo "cyber $version, commit $commit, $(date -u -d "@$date" +%F), ${logic:+proved with logic }${logic:-proved with a logic that is not known here}"
}

# What was built from what, by which toolchain, and what the gate said; only what is at hand is claimed.
write_proved() {
  local unknown='not known: no log of the gate was given' logic
  logic=$unknown
  if [ -n "$gate" ]; then
    logic=$(logic_of_gate)
  fi
  echo "commit ${commit/with changes/with changes that are not committed}"
  echo "logic ${logic:-not named in the log of the gate, for which all proofs were kept}"
  echo "proofs ${proofs:-$unknown}"
  said=${said#gate: }
  echo "gate ${said:-$unknown}"
  echo "sha256 of the files beside this one:"
  (cd "$stage/usr" && find . -type f ! -name PROVED -printf '%P\n' | LC_ALL=C sort | xargs -d '\n' sha256sum)
}

# Copies files of the repository, each under its name there, into a folder.
copy_files() { # the folder, and the names
  local folder=$1 file mode
  shift
  git -C "$top" ls-files -- "$@" | while read -r file; do
    mode=644
    [ ! -x "$top/$file" ] || mode=755
    install -D -m "$mode" "$top/$file" "$folder/$file"
  done
}

# What runs is in one folder, laid out as the repository is, so that each script finds there what it finds in the repository.
fill_stage() {
  mkdir -p "$stage/usr/bin" "$stage/usr/share/man/man1" "$stage/usr/share/bash-completion/completions" \
    "$stage/usr/share/zsh/vendor-completions" "$doc"
  install -D -m 755 "$program" "$lib/crates/cyber/out/cyber"
  copy_files "$lib" cyber front tools batch
  rm "$lib/front/repository.sh" "$lib/front/build.sh" "$lib/front/quick.sh" "$lib/front/kit.txt" "$lib/front/weights.txt"
  write_version >"$lib/front/version.txt"
  ln -s "../lib/$name/cyber" "$stage/usr/bin/cyber"
  python3 "$top/release/manual.py" "$top/docs/COMMANDS.md" "$version" "$date" | gzip -9n >"$stage/usr/share/man/man1/cyber.1.gz"
  install -m 644 "$top/release/cyber.bash" "$stage/usr/share/bash-completion/completions/cyber"
  install -m 644 "$top/release/cyber.zsh" "$stage/usr/share/zsh/vendor-completions/_cyber"
  copy_files "$doc" examples docs README.md release/README.md bench/README.md tools/README.md
  write_proved >"$doc/PROVED"
  find "$stage/usr" -exec touch -h -d "@$date" {} +
}

make_tarball() {
  local folder=$name-${version#0~}
  tar --sort=name --owner=0 --group=0 --numeric-owner --mtime="@$date" --transform "s,^usr,$folder," -C "$stage" -cf - usr |
    gzip -9n >"$out/$folder-$machine.tar.gz"
  echo "$out/$folder-$machine.tar.gz"
}

# The least version of the C library that the program's symbols ask for; nothing where it asks for none.
library_version() {
  { grep -ao 'GLIBC_[0-9][0-9.]*' "$program" || true; } | sed 's/GLIBC_//' | sort -V | tail -n 1
}

make_package() {
  local least architecture package
  architecture=$(dpkg --print-architecture)
  least=$(library_version)
  package=$out/${name}_${version}_$architecture.deb
  mkdir "$stage/DEBIAN"
  (cd "$stage" && find usr -type f | LC_ALL=C sort | xargs -d '\n' md5sum) >"$stage/DEBIAN/md5sums"
  cat >"$stage/DEBIAN/control" <<CONTROL
Package: $name
Version: $version
Architecture: $architecture
Maintainer: The Zektrob project <zektrob@localhost>
Section: science
Priority: optional
Installed-Size: $(du -sk "$stage/usr" | cut -f 1)
${least:+Depends: libc6 (>= $least)
}Recommends: python3
Suggests: python3-protobuf, python3-matplotlib, python3-jinja2, snakemake
Description: proved component runtime that replays recorded messages
 The program cyber plays records of Apollo Cyber RT through components and
 writes a record of all messages and a trace of all calls. What it promises
 of a replay is proved; the file PROVED says of what commit and by what.
CONTROL
  SOURCE_DATE_EPOCH=$date dpkg-deb --root-owner-group --build "$stage" "$package" >/dev/null
  echo "$package"
}

umask 022
mkdir -p "$out"
fill_stage
make_tarball
if command -v dpkg-deb >/dev/null; then
  make_package
else
  echo "release/make.sh: no dpkg-deb, so no Debian package" >&2
fi
