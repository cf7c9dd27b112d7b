#!/bin/sh
# Times the cutting of a page into lines alone: builds the program of bench/cutting beside copies of the crates that
# it needs, in a folder of its own, and runs it and `wc -l` in turn over a page of 100 MB (bench/cutting.py).
# A first build proves the crates, which takes some minutes; what earlier checks of them left is taken along.
# usage: bench/run cutting [RUNS]
cd "$(dirname "$0")/.." || exit 1
room=$(mktemp -d) || exit 1
trap 'rm -rf "$room"' EXIT
program=$room/crates/cutting
mkdir -p "$program/src" "$program/proofs/take_chunk" "$program/proofs/take_all"
crates="page_core_base page_core_streams page_roff_decoding page_roff_lines"
for crate in $crates; do
    cp -R "crates/$crate" "$room/crates/"
    grep "^$crate:" crates.txt >> "$room/crates.txt"
done
echo 'cutting: page_core_base page_core_streams page_roff_lines' >> "$room/crates.txt"
cp bench/cutting/main.txt "$program/src/main.rt"
cp bench/cutting/take_chunk.txt "$program/proofs/take_chunk/Invariants.antt"
cp bench/cutting/take_all.txt "$program/proofs/take_all/Invariants.antt"
if ! (cd "$program" && rt run) < /dev/null > "$room/build" 2>&1; then
    cat "$room/build"
    exit 1
fi
python3 bench/cutting.py "$program/out/cutting" "$@"
