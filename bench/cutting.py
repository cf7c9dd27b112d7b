#!/usr/bin/env python3
"""Times a program that cuts its standard input into lines, beside `wc -l` (usage: bench/cutting.py PROGRAM [RUNS]).

The page has 100 MB, in lines of 60 to 80 letters. Both are run RUNS times in turn (default 15), and the least time of
each counts. Times hold for one machine in one run only. The peak of memory is given at 1 MB too, to compare.
"""
import random
import subprocess
import sys
import tempfile

from pages import peak_of, timed

BLOCK = 1_000_000
BLOCKS = 100
LETTERS = "abcdefghijklmnopqrstuvwxyz"


def block():
    """Returns lines of about a megabyte."""
    drawn = random.Random(1)
    lines, length = [], 0
    while length < BLOCK:
        line = "".join(drawn.choices(LETTERS, k=drawn.randint(60, 80))) + "\n"
        lines.append(line)
        length += len(line)
    return "".join(lines)


def lines_by(words, name):
    """Returns the number that a program begins its output with."""
    with open(name, "rb") as file:
        return int(subprocess.check_output(words, stdin=file).split()[0])


def main():
    program = [sys.argv[1]]
    count = ["wc", "-l"]
    runs = int(sys.argv[2]) if len(sys.argv) > 2 else 15
    with tempfile.TemporaryDirectory() as room:
        small, page = f"{room}/small", f"{room}/page"
        text = block()
        with open(small, "w") as file:
            file.write(text)
        with open(page, "w") as file:
            for _ in range(BLOCKS):
                file.write(text)
        if lines_by(program, page) != lines_by(count, page):
            sys.exit("the lines are not as many as wc counts")
        ours, least = [], []
        for _ in range(runs):
            least.append(timed(count, page)[0])
            ours.append(timed(program, page)[0])
        print(f"bytes {len(text) * BLOCKS}, lines {lines_by(count, page)}, the least of {runs} runs each")
        print(f"wc -l {min(least) * 1000:.1f} ms, cutting {min(ours) * 1000:.1f} ms, ratio {min(ours) / min(least):.2f}")
        print(f"peak {peak_of(program, small)} kB at {len(text)} bytes, {peak_of(program, page)} kB at {len(text) * BLOCKS} bytes")


if __name__ == "__main__":
    main()
