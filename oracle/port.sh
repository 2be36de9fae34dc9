# shellcheck shell=bash
# Sourced, in oracle/, by scripts that run the proved archive beside the crate; complains through the script's `fail`.

archive=${PRALAKUON_ARCHIVE:-../target/archive}/libpralakuon_c.a
# A folder of its own: the driver that oracle/setup builds needs no archive.
ported=target/port/release/pralakuon-oracle

build_port() {
  [ -f "$archive" ] || fail 'no archive; run host/archive first'
  [ -f target/sources ] || fail 'not built; run oracle/setup first'
  PRALAKUON_CRATE_SOURCES=$(cat target/sources)
  export PRALAKUON_CRATE_SOURCES
  # cargo reads .cargo/config.toml from the current directory upwards.
  cargo build --release --offline --quiet --features port --target-dir target/port || fail 'the build failed; run oracle/setup first'
}
