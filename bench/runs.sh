#!/usr/bin/env bash
# Times the frame machine beside CPython on the same calls in one run, alone and with sys.settrace: a loop of arithmetic, a list, nested calls,
# classes, exceptions and a dict, each with ten times the turns too; then one loop below more and more frames, and beside more and more objects. The
# program's time is the best of five whole runs, less that of one with no call. A step has the same time in each pair.
# It needs the program that `rt run` builds in crates/pyn_bench, and python3.
set -e
cd "$(dirname "${BASH_SOURCE[0]}")/.."
program="$PWD/crates/pyn_bench/out/pyn_bench"
[ -x "$program" ] || (cd crates/pyn_bench && rt run -- tokens data/some.py >/dev/null)
folder="$(mktemp -d)"
trap 'rm -rf "$folder"' EXIT
both() { # a form, and its turns
    python3 bench/running.py "$1" "$2" >"$folder/one.py"
    python3 bench/traced.py "$1, $2 turns" "$program" "$folder/one.py" 10
}
for form in arithmetic list calls classes exceptions dict; do
    both "$form" 2000
    both "$form" 20000
done
for below in 1 50 99; do
    python3 bench/running.py depth 20000 "$below" >"$folder/one.py"
    python3 bench/traced.py "arithmetic, $below frames deep" "$program" "$folder/one.py" 10
done
for beside in 1000 10000 100000; do
    python3 bench/running.py objects 200000 "$beside" >"$folder/one.py"
    python3 bench/traced.py "arithmetic, beside $beside lists" "$program" "$folder/one.py" 5
done
