#!/usr/bin/env python3
"""Times ./mandoc on pages of roff (usage: bench/run roff [RUNS]): text in blocks that run, calls of a macro, and hostile pages.

Each page is formatted RUNS times (default 5); the least time counts. Where a `mandoc` is on the PATH it is run in turn with ours, and its
time over ours is printed: above 1, ours is faster. The hostile pages are formatted at a quarter, a half and the whole of their size: where
the time is linear, each column is about twice the one before.
"""
import shutil
import sys
import tempfile

from pages import page, paragraph_line, timed

HEAD = ".TH BENCH 1 2026-11-22 Bench\n.SH NAME\nbench \\- a page to time\n"
SIZE = 1_000_000


def in_blocks(size):
    """Text of which each eight lines stand in a block that runs."""
    lines, length, at = [], 0, 0
    while length < size:
        block = [".if n \\{\\"] + [paragraph_line(at + k, False) for k in range(8)] + [".\\}"]
        lines += block
        length += sum(len(line) + 1 for line in block)
        at += 8
    return HEAD + "\n".join(lines) + "\n"


def of_calls(size):
    """Calls of a macro of three lines, with an argument each."""
    head = ".de Th\n.if n \\{\nit says \\\\$1 here\n.\\}\n..\n"
    calls, length, at = [], 0, 0
    while length < size:
        call = f'.Th "{paragraph_line(at, False)[:40]}"'
        calls.append(call)
        length += len(call) + 1
        at += 1
    return HEAD + head + "\n".join(calls) + "\n"


def repeated(text, per_line, before=""):
    """A text that comes again and again, this often in each line, after other lines."""

    def made(count):
        line = text * per_line
        return HEAD + before + (line + "\n") * (count // per_line)

    return made


def in_a_loop(text, before=""):
    """A text that comes again and again in a line that a loop repeats a thousand times, after other lines."""

    def made(count):
        return HEAD + before + IN_LOOP[0] + text * count + "\n" + IN_LOOP[1]

    return made


def unended(head, pairs=False, end=""):
    """A line of widths of which no delimiter comes again, all different; with pairs, each of them once more in a pair, which ends no width."""

    def made(count):
        marks = [chr(0x4E00 + k) for k in range(count)]
        line = "".join("\\w" + mark for mark in marks) + "".join("\\" + mark for mark in marks if pairs)
        return HEAD + head + line + "\n" + end

    return made


IN_LOOP = (".de m\n.while 1 \\{\\\n", ".\\}\n..\n.m\n")
LONG_STRING = ".ds s " + "x" * 16_000 + "\n"
FULL_STORE = "".join(f".ds n{k:04} {'x' * 50}\n" for k in range(1000))
NESTED = "\n".join([".while 1 \\{"] * 64 + ["x"] + [".\\}"] * 64)
DEFINING = "\n".join([".while 1 \\{", ".de m", "x", "..", ".m", ".\\}"])

# Each with the number of times that its text stands in the page. The other program is run over those of a million alone: it is not run over
# loops that have no end.
HOSTILE = [
    (".if t \\{, a million", repeated(".if t \\{", 1), 1_000_000),
    (".if n \\{, a million", repeated(".if n \\{", 1), 1_000_000),
    (".de, a million", repeated(".de", 1), 1_000_000),
    ("\\*[a, a million in lines of 1,000", repeated("\\*[a", 1000), 1_000_000),
    ("\\*a, a million in lines of 1,000", repeated("\\*a", 1000), 1_000_000),
    (".while 0 \\{\\}, a million", repeated(".while 0 \\{\\}", 1), 1_000_000),
    (".while t \\{, a million in lines of 1,000", repeated(".while t \\{", 1000), 1_000_000),
    (".while 1 \\{\\}, ten thousand", repeated(".while 1 \\{\\}", 1), 10_000),
    ("64 loops in each other, a thousand times", repeated(NESTED, 1), 1_000),
    ("a loop that defines what it calls, a thousand", repeated(DEFINING, 1), 1_000),
    (".if \\wA\\wB.., 13,000 in a line", unended(".if "), 13_000),
    ("\\wA\\wB..\\A\\B.., 7,000 in a line", unended("", pairs=True), 7_000),
    (".if \\wA\\wB.., 3,200 in a line of a loop", unended(IN_LOOP[0] + ".if ", end=IN_LOOP[1]), 3_200),
    ("\\wA\\wB..\\A\\B.., 1,700 in a line of a loop", unended(IN_LOOP[0], pairs=True, end=IN_LOOP[1]), 1_700),
    ("\\w of 16,000 bytes, 2,500 in lines of five", repeated("\\w'\\*s'", 5, LONG_STRING), 2_500),
    ("\\w of 16,000 bytes, 500 in a line of a loop", in_a_loop("\\w'\\\\*s'", LONG_STRING), 500),
    ("\\h'1000n', 80,000 in lines of 400", repeated("\\h'1000n'", 400), 80_000),
    ("\\h'1000n', 1,600 in a line of a loop", in_a_loop("\\h'1000n'"), 1_600),
    ("tabs in kept rows, 80,000 in lines of 4,000", repeated("\t", 4_000, ".nf\n"), 80_000),
    (".as and .ds in a full store, 20,000 of each", repeated(".as n0000 y\n.ds n0000 x", 1, FULL_STORE), 20_000),
    ("glyphs that there are not, 3,900 in a loop", in_a_loop("\\(zz"), 3_900),
]

OURS_ALONE = [kind for kind, _, most in HOSTILE if most < 1_000_000]


def least(words, name, runs):
    return min(timed(words, name)[0] for _ in range(runs))


def main():
    runs = int(sys.argv[1]) if len(sys.argv) > 1 else 5
    other = shutil.which("mandoc")
    with tempfile.TemporaryDirectory() as room:
        name = f"{room}/page"
        print("page                      bytes     MB/s" + (f"   time of {other} over ours" if other else ""))
        pages = [("plain text", page(SIZE, False)), ("text in blocks", in_blocks(SIZE)), ("calls of a macro", of_calls(SIZE))]
        for kind, text in pages:
            with open(name, "w") as file:
                written = file.write(text)
            ours = least(["./mandoc"], name, runs)
            line = f"{kind:22} {written:8} {written / ours / 1e6:8.1f}"
            print(line + (f" {least([other, '-T', 'ascii'], name, runs) / ours:12.2f}" if other else ""))
        print("page                                             seconds at a quarter, a half and all" + ("   of the other at all" if other else ""))
        for kind, made, most in HOSTILE:
            times = []
            for count in (most // 4, most // 2, most):
                with open(name, "w", encoding="utf-8") as file:
                    file.write(made(count))
                times.append(least(["./mandoc"], name, 1))
            line = f"{kind:46} " + " ".join(f"{seconds:8.3f}" for seconds in times)
            print(line + (f" {least([other, '-T', 'ascii'], name, 1):12.3f}" if other and kind not in OURS_ALONE else ""))


if __name__ == "__main__":
    main()
