#!/bin/sh
# Writes the archive of the calls for C and Rust to target/staticlib/libabi.a.
set -eu
cd "$(dirname "$0")/../crates/abi"
rt lib
mkdir -p ../../target/staticlib
cp out/libabi.a ../../target/staticlib/libabi.a
