#!/bin/sh
# Runs the programs on inputs of many lengths, from a file and in pieces, and compares what they write with another program's output for the
# whole input: no contract says what the system delivers. A line for each failure, and last the counts.
set -u
cd "$(dirname "$0")/.."
export CARGO_TARGET_DIR="$PWD/target/compare"
others=$CARGO_TARGET_DIR/release
out=target/input
rm -rf "$out" && mkdir -p "$out" || exit 1
passed=0 failed=0

# count WHAT TEST: passed if the test holds.
count() {
    if "$2"; then
        passed=$((passed + 1))
    else
        echo "FAIL: $1"
        failed=$((failed + 1))
    fi
}

# No program writes nothing: an empty expectation is one that was not made.
is_expected() {
    [ -s "$out/expected" ] && cmp -s "$out/expected" "$out/written"
}

# Nothing is written, and the program says what it could not do.
is_reported() {
    ! [ -s "$out/written" ] && grep -q "$reason" "$out/said"
}

# A single read gets a single piece.
is_in_pieces() {
    [ "$("$out/pieces" 7 < "$out/2048.table" | dd bs=4096 count=1 status=none | wc -c)" -eq 7 ]
}

# The longest table is one that is accepted.
is_accepted() {
    [ "$("$others/list" < "$out/2048.table" | head -c 8)" = "ok 1024 " ]
}

# run PROGRAM EXPECTED FILE..: the program on each file, whole and in pieces, beside what EXPECTED makes of it.
run() {
    program=$1 expected=$2
    shift 2
    for file in "$@"; do
        rm -f "$out/expected"
        $expected < "$file" > "$out/expected"
        rm -f "$out/written"
        timeout 60 "$program" < "$file" > "$out/written" || rm -f "$out/written"
        count "$program < $file" is_expected
        for size in 1 2 7; do
            rm -f "$out/written"
            "$out/pieces" "$size" < "$file" | timeout 60 "$program" > "$out/written" || rm -f "$out/written"
            count "$program < $file in pieces of $size" is_expected
        done
    done
}

# run_failing PROGRAM FILE: a directory cannot be read, nor a full device written: the program says so, by its name.
run_failing() {
    reason="${1##*/}: standard input"
    timeout 60 "$1" < / > "$out/written" 2> "$out/said"
    count "$1 < / says that it cannot read" is_reported
    : > "$out/written"
    reason="${1##*/}: standard output"
    timeout 60 "$1" < "$2" > /dev/full 2> "$out/said"
    count "$1 > /dev/full says that it cannot write" is_reported
}

# node KIND FIELD: its two bytes.
node() {
    printf %b "\\00$(($1 / 8))$(($1 % 8))\\0$(($2 / 64))$(($2 / 8 % 8))$(($2 % 8))"
}

# An accepted table of 1,024 nodes: 512 leaves, pauses and emits by turns, joined two and two until one statement is left, and a loop around
# it, without which the whole listing is another.
longest_table() {
    leaf=1
    while [ "$leaf" -le 512 ]; do
        if [ $((leaf % 2)) -eq 1 ]; then node 2 0; else node 3 $((leaf / 2 % 256)); fi
        statements=$leaf kind=9
        while [ $((statements % 2)) -eq 0 ]; do
            node "$kind" 0
            statements=$((statements / 2)) kind=10
        done
        leaf=$((leaf + 1))
    done
    node 8 0
}

# The lengths around the longest table: one node less, an odd one, one byte and one node more, and far too long a one, which all begin alike.
make_tables() {
    : > "$out/0.table"
    longest_table > "$out/2048.table"
    head -c 2046 "$out/2048.table" > "$out/2046.table"
    head -c 2047 "$out/2048.table" > "$out/2047.table"
    { cat "$out/2048.table" && printf '\002'; } > "$out/2049.table"
    { cat "$out/2048.table" && node 11 0; } > "$out/2050.table"
    { cat "$out/2048.table" && head -c 97952 /dev/zero; } > "$out/100000.table"
}

# The lengths around the longest text, whose blanks stand before its only statement: one byte less, and one more, which is refused; and texts
# that are refused for what they say, and where.
make_texts() {
    : > "$out/0.text"
    { head -c 16378 /dev/zero | tr '\0' ' ' && printf pause; } > "$out/16383.text"
    { printf '\n' && cat "$out/16383.text"; } > "$out/16384.text"
    { printf '\t' && cat "$out/16384.text"; } > "$out/16385.text"
    { cat "$out/16384.text" && head -c 83616 /dev/zero; } > "$out/100000.text"
    head -c 16384 /dev/zero | tr '\0' '[' > "$out/brackets.text"
    printf 'exit T' > "$out/untrapped.text"
    printf '[pause]' > "$out/bracket.text"
    printf 'loop\n\tpause;\n\temit case\nend\n' > "$out/foreign.text"
    printf 'abort\n  halt\nwhen S\n' > "$out/stops.text"
}

# told PROGRAM NAME: a script NAME that writes what the program writes to standard output and, after a line of dashes, to standard error.
told() {
    printf '#!/bin/sh\nset -u\n"%s" 2> "%s.error"\nprintf "\\n--\\n"\ncat "%s.error"\n' "$1" "$out/$2" "$out/$2" > "$out/$2" && chmod +x "$out/$2"
}

gcc -Wall -Wextra -Werror -O1 tools/pieces.c -o "$out/pieces" &&
    cargo build --manifest-path compare/Cargo.toml --release --offline --locked --quiet --bin list --bin tick --bin first_tick --bin translate &&
    make_tables && make_texts && told "$PWD/crates/translate/out/translate" translate && told "$others/translate" other_translate || { echo "0 passed, 1 failed"; exit 1; }
count "a read gets a piece" is_in_pieces
count "the longest table is accepted" is_accepted
run crates/list/out/list "$others/list" examples/*.table "$out"/*.table
run_failing crates/list/out/list examples/w1.table
run crates/plain_list/out/plain_list "$others/list" examples/*.table "$out"/*.table
run_failing crates/plain_list/out/plain_list examples/w1.table
run crates/tick/out/tick "$others/tick" examples/*.table "$out"/*.table
run_failing crates/tick/out/tick examples/w1.table
run crates/first_tick/out/first_tick "$others/first_tick" examples/*.table "$out"/*.table
run_failing crates/first_tick/out/first_tick examples/w1.table
run "$out/translate" "$out/other_translate" examples/*.strl "$out"/*.text
run_failing crates/translate/out/translate examples/lock.strl
run crates/tables/out/tables "cat crates/tables/stdout" crates/tables/stdin
run crates/instants/out/instants "cat crates/instants/stdout" crates/instants/stdin
run crates/texts/out/texts "cat crates/texts/stdout" crates/texts/stdin
run crates/ticks/out/ticks "cat crates/ticks/stdout" crates/ticks/stdin
run crates/plans/out/plans "cat crates/plans/stdout" crates/plans/stdin
run crates/partitions/out/partitions "cat crates/partitions/stdout" crates/partitions/stdin
run crates/narrowings/out/narrowings "cat crates/narrowings/stdout" crates/narrowings/stdin
echo "$passed passed, $failed failed"
[ "$failed" -eq 0 ]
