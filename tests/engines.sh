#!/usr/bin/env bash
# The engines through the C interface: the wrapper's tests, the examples in Rust and C, the engines against the model, the search for
# two runs that break demand 3, and sheets in text against the model.
#     bash tests/engines.sh [SEED [COUNT]]
# LUVRODAN_ARCHIVE may name the static library; otherwise the crate `exports` is built.
set -eu
cd "$(dirname "$0")/.."
seed=${1:-1}
count=${2:-200000}
. wrapper/archive.sh
if [ -z "$LUVRODAN_ARCHIVE" ]; then
    echo "engines.sh: no archive: rt lib failed in crates/exports_c" >&2
    exit 1
fi

cargo test --offline --release --quiet -p luvrodan

out=$(mktemp -d)
trap 'rm -rf "$out"' EXIT
printf '0 12 00000001\n0 7 00000000\n0 end 00000000\n' > "$out/page"
cargo run --offline --release --quiet -p luvrodan --example embed > "$out/rust"
cmp "$out/page" "$out/rust"
cc -std=c99 -Wall -Wextra -Werror -I include examples/embed.c "$LUVRODAN_ARCHIVE" -lm -o "$out/embed"
"$out/embed" > "$out/c"
cmp "$out/page" "$out/c"

# the berth with page 1 closed to owner 1's data, and not; the README shows it too
printf '%s\n' 'page 1 cleared for owner 0' '0 412 00000000' '1 1397 00000001' 'stop 10: line not cleared for its page' \
    'page 1 cleared for owners 0 and 1' '0 412 00000000' '1 1397 00000001' '1 217 00000003' '0 end 00000000' 'stop 0: the end' \
    > "$out/closed"
cargo run --offline --release --quiet -p luvrodan --example closed > "$out/rust"
cmp "$out/closed" "$out/rust"
if [[ $(sed -n 's/^    //p' README.md)$'\n' != *$'\n'"$(< "$out/closed")"$'\n'* ]]; then
    echo "engines.sh: README.md shows something else than the example closed prints" >&2
    exit 1
fi

cargo build --offline --release --quiet -p differential --features engine
differential=${CARGO_TARGET_DIR:-target}/release/differential
"$differential" engines "$seed" "$count"
"$differential" privacy "$seed" "$count"
"$differential" text "$seed" "$count"
