#!/usr/bin/env python3
"""Times ./mandoc on pages of paragraphs, plain and with fonts, or on given pages (usage: bench/run pages [RUNS [PAGE...]]).

A PAGE may be compressed by gzip. Each page is formatted RUNS times (default 5), by start.c, with -T ascii or the output that the variable OUTPUT
names, such as lint. Where a `mandoc` is on the PATH it is run in turn with ours, and its time over ours is printed, above 1 ours is faster: the time
that passes and the time of the processor, the least of all runs and the median. Times hold for one machine in one run only.
"""
import gzip
import os
import shutil
import subprocess
import sys
import tempfile
import time

OUTPUT = ["-T", os.environ.get("OUTPUT", "ascii")]
SIZES = (10_000, 100_000, 1_000_000, 10_000_000)
WORDS = "the page request of a macro in its scope fills glyphs and escapes registers or diversions with rows that columns hold".split()


def paragraph_line(at, has_fonts):
    words = [WORDS[(at * 7 + k * 5) % len(WORDS)] for k in range(11)]
    if has_fonts:
        words[3] = f"\\fB{words[3]}\\fR"
        words[7] = f"\\fI{words[7]}\\fP"
    return " ".join(words) + "."


def page(size, has_fonts):
    lines, length, at = [".TH BENCH 1 2026-11-22 Bench", ".SH NAME", "bench \\- a page to time"], 70, 0
    while length < size:
        line = ".PP" if at % 8 == 7 else paragraph_line(at, has_fonts)
        lines.append(line)
        length += len(line) + 1
        at += 1
    return "\n".join(lines) + "\n"


def starter(room):
    """Returns the program that starts others and takes their times, made anew in a folder."""
    made = f"{room}/start"
    source = os.path.join(os.path.dirname(os.path.abspath(__file__)), "start.c")
    subprocess.run([os.environ.get("CC", "cc"), "-O2", "-o", made, source], check=True)
    return made


def times_in_turn(starter, runs, name, commands):
    """Returns, for each of these commands, the least and the median milliseconds that passed, and those of the processor."""
    words = [starter, str(runs), name]
    for command in commands:
        words += (["--"] if words[3:] else []) + command
    run = subprocess.run(words, stdout=subprocess.PIPE, text=True, check=True)
    return [[float(number) for number in line.split()] for line in run.stdout.splitlines()]


def timed(words, name):
    """Returns the seconds of one run, from its start by this script to its end, and those of the processor, for runs that take longer."""
    streams = [
        (os.POSIX_SPAWN_OPEN, 0, name, os.O_RDONLY, 0),
        (os.POSIX_SPAWN_OPEN, 1, os.devnull, os.O_WRONLY, 0),
    ]
    begun = time.perf_counter()
    run = os.posix_spawnp(words[0], words, os.environ, file_actions=streams)
    _, status, usage = os.wait4(run, 0)
    seconds = time.perf_counter() - begun
    if status:
        sys.exit(f"{' '.join(words)}: status {os.waitstatus_to_exitcode(status)}")
    return seconds, usage.ru_utime + usage.ru_stime


def peak_of(words, name):
    """Returns the peak of memory in kB and, in parentheses, what the program itself holds of it: the rest are pages of its file and of the C
    library, of which the kernel maps as many as it likes. Both are read while the program runs: the last byte of the page is kept back until then.
    """
    with open(name, "rb") as file:
        text = file.read()
    with subprocess.Popen(words, stdin=subprocess.PIPE, stdout=subprocess.DEVNULL) as run:
        run.stdin.write(text)
        run.stdin.flush()
        time.sleep(0.05)
        peak, own = (kilobytes(f"/proc/{run.pid}/{file}", field) for file, field in (("status", "VmHWM"), ("smaps_rollup", "Anonymous")))
    return f"{peak} ({own})"


def kilobytes(name, field):
    """Returns what a line of a file of the system says, in kB."""
    with open(name) as lines:
        return next(int(line.split()[1]) for line in lines if line.startswith(field))


def given_page(name):
    """Returns the bytes of a page of man(7)."""
    with open(name, "rb") as file:
        text = file.read()
    return gzip.decompress(text) if name.endswith(".gz") else text


def pages(names):
    """Gives each page with its name: those that were named, or else paragraphs of both kinds and all sizes."""
    for name in names:
        yield os.path.basename(name).removesuffix(".gz"), given_page(name)
    if not names:
        for kind in ("plain", "fonts"):
            for size in SIZES:
                yield kind, page(size, kind == "fonts").encode()


def main():
    runs = int(sys.argv[1]) if len(sys.argv) > 1 else 5
    other = shutil.which("mandoc")
    print("         bytes     MB/s  peak kB (own)" + (f"   least: time, processor   median: time, processor   peak kB (own) of {other}" if other else ""))
    with tempfile.TemporaryDirectory() as room:
        start = starter(room)
        for kind, text in pages(sys.argv[2:]):
            name = f"{room}/page"
            with open(name, "wb") as file:
                written = file.write(text)
            ours, *others = times_in_turn(start, runs, name, [["./mandoc", *OUTPUT]] + ([[other, *OUTPUT]] if other else []))
            line = f"{kind} {written:8} {written / ours[0] / 1e3:8.1f} {peak_of(['./mandoc', *OUTPUT], name):>14}"
            for theirs in others:
                passed, median, used, median_used = (their / our for their, our in zip(theirs, ours))
                line += f" {passed:13.2f} {used:10.2f} {median:14.2f} {median_used:10.2f}"
                line += f" {peak_of([other, *OUTPUT], name):>20}"
            print(line)


if __name__ == "__main__":
    main()
