#!/bin/sh
# Counts, with valgrind, the allocations of runs over small and large pages of several kinds: their number is the same for all, since nothing is
# asked for once a page is made. Takes a minute.
set -eu
cd "$(dirname "$0")/.."
# Valgrind sees no allocations of a static executable, so this is the one that rt linked.
program=$(bench/built mandoc_cli)
room=$(mktemp -d)
trap 'rm -rf "$room"' EXIT
head='.TH PAGE 1 2026-11-22 Bench\n.SH NAME\npage \\- to count its allocations\n'

# page NAME TEXT LINES: a page whose body repeats a text, in this many lines.
page() {
    { printf "$head"; yes "$(printf "$2")" | head -n "$3"; } > "$room/$1"
}

page one 'text' 1
page text 'some words of a text line, and some more of them to fill the row' 20000
page strings '.ds a value\n\\*a and \\*[b] and \\n[c]' 20000
page macros '.de m\ntext of \\$1\n..\n.m one "two three"' 5000
page blocks '.ie n \\{\\\n.B bold\n.\\}\n.el .I italic' 5000
page scopes '.RS\n.TP\ntag\ntext of a paragraph' 5000
page errors '.XX \\*[\n\\fZ \\[none]\n.RE' 5000
for name in one text strings macros blocks scopes errors; do
    count=$(valgrind "$program" -W base < "$room/$name" 2>&1 > /dev/null | sed -n 's/.*total heap usage: \(.*\) allocs.*/\1/p')
    printf '%-8s %9d bytes  %s allocations\n' "$name" "$(wc -c < "$room/$name")" "$count"
done
