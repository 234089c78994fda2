#!/usr/bin/env bash
# Times acceptance on modules of up to 262,144 bytes, the most that a module has, whose names are many or used often: the whole program, which
# reads a module, judges it and then refuses it as `form`, beside the reader alone. Each time is the best of five whole runs.
# It needs the programs that `rt run` builds in crates/pynguin_cli and crates/pyn_bench, and python3.
set -e
cd "$(dirname "${BASH_SOURCE[0]}")/.."
program="${PROGRAM:-$PWD/crates/pynguin_cli/out/pynguin_cli}"
reader="${READER:-$PWD/crates/pyn_bench/out/pyn_bench}"
folder="$(mktemp -d)"
trap 'rm -rf "$folder"' EXIT
for form in letters functions constants locals classes; do
    python3 bench/acceptable.py "$form" >"$folder/one.py"
    python3 bench/judged.py "$form" "$program" "$reader" "$folder"
done
