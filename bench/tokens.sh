#!/usr/bin/env bash
# Times the lexer on a text of 20 MB and on twice the text, beside Python's own tokenizer; and then on texts of one form
# each, of 4 MB and of 8 MB: where time is linear, the second takes twice as long as the first.
# It needs the program that `rt run` builds in crates/pyn_bench, and python3.
set -e
cd "$(dirname "${BASH_SOURCE[0]}")/.."
program="$PWD/crates/pyn_bench/out/pyn_bench"
[ -x "$program" ] || (cd crates/pyn_bench && rt run -- tokens data/some.py >/dev/null)
folder="$(mktemp -d)"
trap 'rm -rf "$folder"' EXIT
TIMEFORMAT='%R seconds'
for size in 20000000 40000000; do
    python3 bench/text.py "$size" >"$folder/one.py"
    echo "modules, $(stat -c %s "$folder/one.py") bytes"
    time "$program" tokens "$folder/one.py"
done
python3 bench/text.py 20000000 >"$folder/one.py"
echo "python3 -m tokenize, $(stat -c %s "$folder/one.py") bytes"
time python3 -m tokenize "$folder/one.py" >/dev/null
for form in cjk emoji combining strings comments blank-lines brackets cr-lf; do
    for size in 4000000 8000000; do
        python3 bench/tokens.py "$form" "$size" >"$folder/one.py"
        echo "$form, $(stat -c %s "$folder/one.py") bytes"
        time "$program" tokens "$folder/one.py" >/dev/null
    done
done
