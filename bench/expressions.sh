#!/usr/bin/env bash
# Times the reader of expressions on long ones: each form with 10,000 tokens, with 100,000 and with 1,000,000.
# It needs the program that `rt run` builds in crates/pyn_bench, and python3.
set -e
cd "$(dirname "${BASH_SOURCE[0]}")/.."
program="$PWD/crates/pyn_bench/out/pyn_bench"
[ -x "$program" ] || (cd crates/pyn_bench && rt run -- tokens data/some.py >/dev/null)
folder="$(mktemp -d)"
trap 'rm -rf "$folder"' EXIT
TIMEFORMAT='%R seconds'
for form in display conjunction comparisons arguments strings; do
    for count in 10000 100000 1000000; do
        python3 bench/expression.py "$form" "$count" >"$folder/one.py"
        echo "$form:" $("$program" expression "$folder/one.py")
        time "$program" expression "$folder/one.py" >/dev/null
    done
done
