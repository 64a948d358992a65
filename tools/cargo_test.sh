#!/bin/sh
# cargo_test.sh DIRECTORY TARGET [WORDS..]: runs the tests of a crate of Rust (the words go to cargo test) and prints a line `ok: FILE: TEST` or `FAIL: FILE: TEST`
# for each. Its exit status is cargo's; on a failure what cargo said comes first.
set -u
directory=$1 target=$2
shift 2
log=$(mktemp)
trap 'rm -f "$log"' EXIT
(cd "$directory" && CARGO_TARGET_DIR=$target cargo test --offline --locked -j1 --no-fail-fast "$@") > "$log" 2>&1
status=$?
[ "$status" -eq 0 ] || tail -n 40 "$log"
awk '/^ *Running / { file = $(NF - 1); sub(/.*\//, "", file); sub(/\.rs$/, ": ", file) }
    /^ *Doc-tests / { file = "doc: " }
    sub(/ \.\.\. ok$/, "") && sub(/^test /, "") { print "ok: " file $0 }
    sub(/ \.\.\. FAILED$/, "") && sub(/^test /, "") { print "FAIL: " file $0 }' "$log"
exit "$status"
