#!/usr/bin/env bash
# The Rust parts with no engine: their layout, document 01's readings and the edges of texts on the model, the generators tried on the model
# and on faulty variants of it, the interpreters that the engines are measured against.
set -eu
cd "$(dirname "$0")/.."
cargo fmt --all --check
cargo test --offline --release --quiet
