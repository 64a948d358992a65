#!/bin/sh
# The differential tests of the archive beside the implementation in compare/; the words go to the program, as --soak SECONDS.
set -eu
cd "$(dirname "$0")/.."
export CARGO_TARGET_DIR="$PWD/target/compare"
exec cargo run --manifest-path compare/Cargo.toml --release --offline --locked --quiet --package differential -- "$@"
