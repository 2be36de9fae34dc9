# shellcheck shell=bash
# Sourced, in the folder of the repository, by scripts that make a table of crates/; complains through the script's `fail`.

make_table() {
  command -v rustc >/dev/null || fail 'no rustc; a Rust toolchain of 1.66 or later is needed'
  work=$(mktemp -d)
  trap 'rm -rf "$work"' EXIT
  rustc --edition 2021 -O -o "$work/tables" oracle/src/tables.rs || fail 'the build failed'
  "$work/tables" "$@"
}
