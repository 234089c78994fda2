#!/usr/bin/env bash
# Times the reader of modules on texts of 131,072 bytes and of 262,144, the most that a module has, beside CPython's own parser on the
# same texts in the same run: modules as people write them, and then texts of one form each. The reader's time is the best of five whole runs of the
# program, with its start and the read of the file; the parser's is the best of five calls of `ast.parse` alone.
# It needs the program that `rt run` builds in crates/pyn_bench, and python3.
set -e
cd "$(dirname "${BASH_SOURCE[0]}")/.."
program="$PWD/crates/pyn_bench/out/pyn_bench"
[ -x "$program" ] || (cd crates/pyn_bench && rt run -- tokens data/some.py >/dev/null)
folder="$(mktemp -d)"
trap 'rm -rf "$folder"' EXIT
for form in modules functions elifs statements assignments calls nested strings; do
    for size in 131072 262144; do
        python3 bench/module.py "$form" "$size" >"$folder/one.py"
        python3 bench/beside.py "$form" "$program" "$folder/one.py"
    done
done
