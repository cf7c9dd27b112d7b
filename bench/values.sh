#!/bin/sh
# Counts the instructions that lines of roff cost in their form, the look-up of their names and their expansion: builds the program of
# bench/values beside copies of the crates that it needs, in a folder of its own, and runs it under valgrind (bench/values.py).
# A first build proves the crates, which takes some minutes; what earlier checks of them left is taken along.
# usage: bench/run values
cd "$(dirname "$0")/.." || exit 1
room=$(mktemp -d) || exit 1
trap 'rm -rf "$room"' EXIT
program=$room/crates/values
mkdir -p "$program/src"
crates="page_core_base page_core_streams page_core_tables page_core_escapes page_core_numbers page_roff_syntax page_roff_names page_roff_parts page_roff_values"
for crate in $crates; do
    cp -R "crates/$crate" "$room/crates/"
    grep "^$crate:" crates.txt >> "$room/crates.txt"
done
echo 'values: page_core_base page_core_streams page_roff_syntax page_roff_names page_roff_values' >> "$room/crates.txt"
cp bench/values/main.txt "$program/src/main.rt"
if ! (cd "$program" && rt run) < /dev/null > "$room/build" 2>&1; then
    cat "$room/build"
    exit 1
fi
python3 bench/values.py "$program/out/values"
