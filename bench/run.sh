#!/usr/bin/env bash
# Measures the engines against interpreters in Rust, and Lua 5.4 where it is installed, and prints the ratios; reading and listing
# texts against Rust; and the start of the program `page` against `true`.
# LUVRODAN_ARCHIVE may name the static library; otherwise the crate `exports_c` is built. With neither, only the Rust ones run.
set -eu
cd "$(dirname "$0")/.."
. wrapper/archive.sh
[ -x crates/page/out/page ] || (cd crates/page && rt run < /dev/null) >&2
if [ -n "$LUVRODAN_ARCHIVE" ]; then
    cargo run --offline --release --quiet -p bench --features engine
else
    cargo run --offline --release --quiet -p bench
fi
