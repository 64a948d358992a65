#!/bin/sh
# build.sh PROGRAM..: proves each program and what it stands on, and builds it to crates/PROGRAM/out/PROGRAM.
set -eu
cd "$(dirname "$0")/../crates"
for program in "$@"; do
    echo "build: $program"
    (cd "$program" && rt run < /dev/null > /dev/null)
done
