#!/bin/sh
# The gate, in parts. Each part ends with a line that counts its tests, and the last line of all adds them up.
set -u
cd "$(dirname "$0")/.."
# where rustup puts cargo, for a server whose path lacks it
PATH=$PATH:${HOME:-/root}/.cargo/bin
log=$(mktemp)
trap 'rm -f "$log" "$log.status"' EXIT
passed=0 failed=0

# part NAME COMMAND..: runs the command and adds its counts. One that ends without counts, or with a failure that it did not
# count, is a failure itself.
part() {
    name=$1
    shift
    { "$@" 2>&1; echo $? > "$log.status"; } | tee "$log" | sed -u "s/^\([0-9]* passed, [0-9]* failed\)$/$name: \1/"
    status=$(cat "$log.status")
    counts=$(tail -n 1 "$log" | sed -n 's/^\([^0-9]*: \)\{0,1\}\([0-9]*\) passed, \([0-9]*\) failed$/\2 \3/p')
    [ -n "$counts" ] || counts="0 1"
    [ "$status" -eq 0 ] || [ "${counts#* }" -gt 0 ] || counts="${counts% *} 1"
    passed=$((passed + ${counts% *}))
    failed=$((failed + ${counts#* }))
}

# written FILE EXPECTED COMMAND..: passed if the command writes what is expected.
written() {
    file=$1 expected=$2
    shift 2
    if "$@" < "$file" | cmp -s - "$expected"; then
        right=$((right + 1))
    else
        echo "FAIL: $1 does not write of $file what $expected has"
        wrong=$((wrong + 1))
    fi
}

# All crates proved, all must-fail edits refused, all outputs compared, all laid out. An edit that cannot be tried says nothing of
# a contract, and fails here.
prove_all() {
    { rt ci 2>&1; echo $? > target/ci.status; } | tee target/ci.log
    status=$(cat target/ci.status)
    if grep -q '^rt: ok.*, [0-9][0-9]* bad' target/ci.log; then
        echo "FAIL: a must-fail edit is bad"
        tail -n 1 target/ci.log
        return 1
    fi
    return "$status"
}

# The worked examples, as tables and as texts: their listings, ticks and first ticks.
run_examples() {
    right=0 wrong=0
    for table in examples/*.table; do
        written "$table" "${table%.table}.listing" crates/list/out/list
        written "$table" "${table%.table}.tick" crates/tick/out/tick
        written "$table" "${table%.table}.first_tick" crates/first_tick/out/first_tick
    done
    for text in examples/*.strl; do
        written "$text" "$text.listing" tools/run_text.sh list "$text"
        written "$text" "$text.tick" tools/run_text.sh tick "$text"
        written "$text" "$text.first_tick" tools/run_text.sh first_tick "$text"
    done
    # with await for the kernel statements that it stands for, the listing is the same
    written examples/lock_await.strl examples/lock.strl.listing tools/run_text.sh list examples/lock_await.strl
    echo "$right passed, $wrong failed"
}

# The other implementation's own tests, and those of the comparison itself.
test_compare() {
    tools/cargo_test.sh compare "$PWD/target/compare" --workspace > target/compare.log
    broken=$?
    cat target/compare.log
    echo "$(grep -c '^ok: ' target/compare.log) passed, $(grep -c '^FAIL: ' target/compare.log) failed"
    return "$broken"
}

mkdir -p target
part "rt ci" prove_all
part examples run_examples
part input tools/test_input.sh
tools/archive.sh > "$log" 2>&1 || cat "$log"
part bindings bindings/test.sh
part compare test_compare
part differential tools/differential.sh
echo "$passed passed, $failed failed"
[ "$failed" -eq 0 ]
