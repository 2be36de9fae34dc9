# shellcheck shell=bash
# Sourced, at the root of the repository, by scripts that have the toolchain prove and build.

# A mark of what is built from: the toolchain's version, the crates without their edits and without what was made of them, and the files named.
made_from() { # FILE..
  {
    rt version
    find crates.txt crates "$@" -type f -not -path '*/must-fail/*' -not -path 'crates/*/out/*' -print0 | LC_ALL=C sort -z | xargs -0 sha256sum
  } | sha256sum
}

# Leaves the program that the toolchain has built where ./run looks for it, with the mark of what it was built from.
keep_program() { # MARK
  mkdir -p target/run
  cp crates/pralakuon/out/pralakuon target/run/ && printf '%s\n' "$1" >target/run/made-from
}

# Two builds at once in one target/ spoil each other, so the second waits. `exec 9>&-` ends it.
alone() {
  mkdir -p target
  exec 9>target/lock
  flock -n 9 || { echo "$0: waiting for another build to end" >&2; flock 9; }
}
