#!/bin/sh
# run_text.sh PROGRAM FILE: what `list`, `tick` or `first_tick` writes of a program that is given as text. A refused text has no table: its refusal is on
# standard error then, and nothing is written.
set -eu
crates="$(dirname "$0")/../crates"
table=$(mktemp)
trap 'rm -f "$table"' EXIT
"$crates/translate/out/translate" < "$2" > "$table"
[ -s "$table" ] || exit 1
"$crates/$1/out/$1" < "$table"
