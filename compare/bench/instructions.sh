#!/bin/sh
# Instructions a call, on all sides, as a Markdown table: each case is run under callgrind with two numbers of
# repetitions, and the difference leaves only the calls. Usage: bench/instructions.sh [PATTERN], as 1024 or start/deep
set -eu
cd "$(dirname "$0")/.."
cargo build --release --offline --quiet --package bench
bench=${CARGO_TARGET_DIR:-target}/release/bench
# callgrind counts each byte of a repeated string instruction, so memset and memcpy are made to do without
export GLIBC_TUNABLES=glibc.cpu.x86_rep_stosb_threshold=0x40000000:glibc.cpu.x86_rep_movsb_threshold=0x40000000

counted() { # CASE SIDE TIMES
    valgrind --tool=callgrind --callgrind-out-file=/dev/null "$bench" --one "$1" "$2" "$3" 2>&1 |
        sed -n 's/.*Collected : //p'
}

a_call() { # CASE SIDE
    # a trial is 4,096 starts and takes long
    case $1 in
    trial/*) echo $(($(counted "$1" "$2" 2) - $(counted "$1" "$2" 1))) ;;
    *) echo $((($(counted "$1" "$2" 12) - $(counted "$1" "$2" 2)) / 10)) ;;
    esac
}

two_pass() { # CASE, of which only an analysis has this side
    case $1 in
    analyse/*) a_call "$1" two-pass ;;
    *) echo - ;;
    esac
}

echo "| case | ours | compare | ours/compare | two-pass | ours/two-pass | ours, a node, an entry, a byte, a block or a start | compare, a node, an entry, a byte, a block or a start |"
echo "|---|---:|---:|---:|---:|---:|---:|---:|"
"$bench" --list | grep -e "${1:-}" | while read -r case units; do
    echo "$case $units $(a_call "$case" ours) $(a_call "$case" compare) $(two_pass "$case")"
done | awk '{ printf "| %s | %d | %d | %.2f | %s | %s | %.1f | %.1f |\n", $1, $3, $4, $3 / $4,
    $5, $5 == "-" ? "-" : sprintf("%.2f", $3 / $5), $3 / $2, $4 / $2 }'
