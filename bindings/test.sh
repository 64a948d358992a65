#!/bin/sh
# Builds and runs the tests of the bindings for C, C++ and Rust over libabi.a. One line a test, and last the counts.
# BAVZHRONO_LIB_DIR is the directory of the archive, by default target/staticlib, where `tools/archive.sh` writes it.
set -u
root=$(cd "$(dirname "$0")/.." && pwd)
lib=${BAVZHRONO_LIB_DIR:-$root/target/staticlib}
case $lib in /*) ;; *) lib=$PWD/$lib ;; esac
out=$root/target/bindings
cd "$root/bindings" && mkdir -p "$out" || exit 1
: > "$out/results"

# report NAME STATUS: the test lines of NAME.log. Tests that did not build, did not run or broke off count as one failure.
report() {
    sed -n "s/^ok: /ok: $1: /p; s/^FAIL: /FAIL: $1: /p" "$out/$1.log" | tee -a "$out/results"
    if { [ "$2" -ne 0 ] || ! grep -q '^ok: ' "$out/$1.log"; } && ! grep -q '^FAIL: ' "$out/$1.log"; then
        tail -n 20 "$out/$1.log"
        echo "FAIL: $1: builds and runs to its end" | tee -a "$out/results"
    fi
}

# test_c NAME LANGUAGE COMPILER..: test.c, compiled as the language.
test_c() {
    name=$1 language=$2
    shift 2
    {
        "$@" -Wall -Wextra -pedantic -Werror -O1 -x "$language" c/test.c -x none "$lib/libabi.a" -o "$out/test_$name" &&
            "$out/test_$name"
    } > "$out/$name.log" 2>&1
    report "$name" $?
}

test_rust() {
    BAVZHRONO_LIB_DIR=$lib "$root/tools/cargo_test.sh" rust "$out/cargo" > "$out/rust.log" 2>&1
    report rust $?
}

test_c c c gcc -std=c99
test_c c++ c++ g++ -std=c++11
test_rust
passed=$(grep -c '^ok: ' "$out/results")
failed=$(grep -c '^FAIL: ' "$out/results")
echo "bindings: $passed passed, $failed failed"
[ "$failed" -eq 0 ]
