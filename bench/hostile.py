#!/usr/bin/env python3
"""Times ./mandoc on hostile pages (usage: bench/run hostile [COUNT]), each with COUNT macros or columns (default 100,000).

Each page is formatted once at a quarter, a half and the whole of its size: where the time is linear, each column is about twice the one
before. Next to them are the peak of our memory at the whole size with what of it is the program's own, and the time of the `mandoc` on the
PATH, if there is one: a run that takes more than a minute is ended, and one that a signal ends is reported.

Then the dearest lines that are known: what one line of each kind takes, in milliseconds of the processor, at a quarter, a half and all of the
size that the limits allow, and how often 1 MB of plain text, measured in the same run, would fit in the last. A line of three bytes that calls a macro
runs a thousand such lines at most.
"""
import os
import resource
import shutil
import subprocess
import sys
import tempfile
import time

from pages import peak_of

HEAD = ".Dd November 22, 2026\n.Dt BENCH 1\n.Os\n.Sh NAME\n.Nm bench\n.Nd pages to time\n.Sh DESCRIPTION\n"
COUNT = 100_000
LIMIT = 60


def columns(count):
    """A list of columns, with a width and a cell for each."""
    return ".Bl -column" + " 1" * count + "\n.It" + " a Ta" * count + "\n.El\n"


# The lines of a page whose lines, of at most 65,536 bytes, are what grows.
LINES = 20


def tabs(count):
    """Lines of a list of columns, each of many tabs."""
    return ".Bl -column a b\n.It a\n" + ("\t" * (count * 64 // 100) + "x\n") * LINES + ".El\n"


def heads(count):
    """Lines of many conditionals that don't hold, one inside another."""
    return ("." + "if 0 ." * (count * 109 // 1000) + "x\n") * LINES


HOSTILE = [
    ("Bl in Bl, no El", lambda count: ".Bl -tag -width 2n\n.It a\n" * count),
    ("Oo on one line, no Oc", lambda count: "." + "Oo " * count + "a\n"),
    ("Oo on lines, no Oc", lambda count: ".Oo\n" * count),
    ("Bo Ao Bc Ac on lines", lambda count: ".Bo Ao Bc Ac\n" * count),
    ("columns of a list", columns),
    ("tabs on a line of columns", tabs),
    ("heads on one line", heads),
    ("Fl a Ar b on one line, ten each", lambda count: "." + "Fl a Ar b " * (10 * count) + "\n"),
]


# ---- the dearest lines

MAN = ".TH BENCH 1 2026-11-22 Bench\n.SH NAME\nbench \\- lines to time\n.SH DESCRIPTION\n"
VALUE, VALUES = 16_000, 60_000
# as many interpolations as a line may have
EACH = 1000
PLAIN = MAN + ("These words are as plain as the words of a page can be, and a row ends after some of them.\n" * 11_000)


def in_widths(value, names="a", each=4, within=0):
    """A line of widths, each of a value several times: as many interpolations as a line may have, of which this many are within each value."""

    def made(part):
        size = min(VALUE, VALUES // len(names)) * part // 4
        texts = [value(size, at) for at, _ in enumerate(names)]
        values = "".join(f".ds {name} {text}\n" for name, text in zip(names, texts))
        width = "\\w'" + "".join(f"\\\\*{names[at % len(names)]}" for at in range(each)) + "'"
        return MAN + values + ".ds z " + width * (EACH // (each * (1 + within) + 1) - 1) + "\n", "\\*z\n"

    return made


def in_different_widths(value, before=0):
    """The same, of which no two widths have the same text: a number comes after this many of the four values. Of a text that is remembered only
    its end helps with the next, so that what is before a number and the number are measured each time."""

    def made(part):
        width = "".join("\\w'" + "\\\\*a" * before + f"{at:03}" + "\\\\*a" * (4 - before) + "'" for at in range(EACH // 5 - 1))
        return MAN + ".ds a " + value(VALUE * part // 4) + "\n.ds z " + width + "\n", "\\*z\n"

    return made


def unended(size, at):
    """Widths whose second delimiters never come, all different."""
    return "".join("\\w" + chr(0x4E00 + at * (size // 5) + k) for k in range(size // 5))


def between_registers(size, at):
    """The same, with a register after each hundred: so the value is not copied as a whole."""
    parts = unended(size, at).split("\\w")[1:]
    return "".join("\\w" + part + ("\\\\n[x]" if k % 100 == 99 else "") for k, part in enumerate(parts))


# A backslash and a letter above ASCII, which is no escape.
PAIR = "\\\u00e9"


def pairs(size, at=0):
    """Pairs, with what could be a width at the end."""
    return PAIR * (size // len(PAIR.encode()) - 2) + "\\\\\\\\w"


def pairs_of_a_page(part):
    """Pairs in a line of the page itself, with a register at its end."""
    return MAN, PAIR * (5_400 * part) + "\\nx\n"


def width_of_pairs(part):
    """A line with one width alone."""
    return MAN + ".ds a " + pairs(VALUE * part // 4) + "\n", "\\w'\\*a'\n"


def backslashes(size, at):
    """A width that is closed behind as many backslashes as there is room for."""
    return "\\wA" + "\\\\\\\\" * (size // 2 - 6) + "\\AA"


def few_unended(size, at):
    """Eight widths without ends, each before a register, and what prints nothing."""
    widths = "".join("\\w\\&\\w" + chr(0x4E00 + k) + "\\\\nx" for k in range(8))
    return widths + "\\&" * (size // 2 - len(widths))


def widths_in_a_condition(part):
    return MAN, ".if " + "".join("\\w" + chr(0x4E00 + at) for at in range(3_200 * part)) + "\n"


def names_of(word, times):
    """A name of many cells, printed as often as a line has room for it."""

    def made(part):
        head = HEAD.replace(".Nm bench\n", ".Nm \"" + word * (times * part // 4) + "\"\n")
        return head + ".ds a " + "Nm " * 5400 + "\n", ".No \\*a\\*a\\*a\\*a\n"

    return made


def blanks(part):
    """Blanks of a thousand columns, as many as a line has room for."""
    return MAN + ".ds a " + "\\\\h'999'" * (VALUE * part // 4 // 8) + "\n", "\\*a\\*a\\*a\\*a\n"


def tabs_of_columns(part):
    return HEAD + ".Bl -column a b\n.It a\n", "\t" * (16_000 * part) + "x\n"


def cells_of_a_letter(part):
    return HEAD + ".Bl -column a b c\n", ".It " + "a\t" * (8_000 * part) + "\n"


def long_words(part):
    """Words of which few have room together, and a blank at the line's end."""
    return MAN, ("a" * 128 + " ") * (126 * part) + "\n"


LINES_OF = [
    ("\\w without ends, in a value", in_widths(unended)),
    ("the same, two values in turn", in_widths(unended, "ab")),
    ("the same, forty values in turn", in_widths(unended, "abcdefghijklmnopqrstuvwxyABCDEFGHIJKLMNO", 40)),
    ("the same, with registers between", in_widths(between_registers, "a", 1)),
    ("widths of \\&", in_widths(lambda size, at: "\\&" * (size // 2))),
    ("widths of CJK", in_widths(lambda size, at: chr(0x4E00) * (size // 3))),
    ("widths of glyphs", in_widths(lambda size, at: "\\(bu" * (size // 4))),
    ("widths of CJK, all different", in_different_widths(lambda size: chr(0x4E00) * (size // 3))),
    ("widths of glyphs, all different", in_different_widths(lambda size: "\\(bu" * (size // 4))),
    ("widths of \\h, all different", in_different_widths(lambda size: "\\h'1'" * (size // 5))),
    ("widths of \\h'(((', all different", in_different_widths(lambda size: ("\\h'" + "(" * 15 + "'") * (size // 19))),
    ("widths of \\h'+(+(+(', all different", in_different_widths(lambda size: ("\\h'" + "+(" * 15 + "'") * (size // 34))),
    ("widths of \\h'1+(1+(', all different", in_different_widths(lambda size: ("\\h'" + "1+(" * 15 + "1'") * (size // 50))),
    ("widths of \\h'1+1+1', all different", in_different_widths(lambda size: ("\\h'" + "1+" * 15 + "1'") * (size // 35))),
    ("widths of one long sum, all different", in_different_widths(lambda size: "\\h'" + "1+" * (size // 2 - 3) + "1'")),
    ("widths of \\h, with other ends", in_different_widths(lambda size: "\\h'1'" * (size // 5), 4)),
    ("widths of \\h, with other middles", in_different_widths(lambda size: "\\h'1'" * (size // 5), 2)),
    ("widths of pairs, with other ends", in_different_widths(lambda size: PAIR * (size // 3), 4)),
    ("widths of \\h'\\v'1'', all different", in_different_widths(lambda size: "\\h'\\v'1''" * (size // 10))),
    ("widths of \\s[1], all different", in_different_widths(lambda size: "\\s[1]" * (size // 5))),
    ("widths of pairs", in_widths(pairs, "a", 1)),
    ("pairs in a line of the page", pairs_of_a_page),
    ("one width of pairs", width_of_pairs),
    ("widths of \\n[ without a bracket", in_widths(lambda size, at: "\\\\n[" * (size // 3), "a", 1)),
    ("widths of backslashes", in_widths(backslashes, "a", 1, 1)),
    ("widths of few \\w without ends", in_widths(few_unended, "a", 1, 8)),
    ("\\w without ends, in a condition", widths_in_a_condition),
    ("widths of plain letters", in_widths(lambda size, at: "x" * size)),
    ("Nm of blanks", names_of("\\h'999'", 36)),
    ("Nm of blanks in two fonts", names_of("\\h'999'\\fB\\h'999'\\fI", 12)),
    ("Nm of blanks and letters", names_of("\\h'999'\u00e9", 28)),
    ("Nm of plain letters", names_of("x", 256)),
    ("Nm of CJK letters", names_of(chr(0x4E00), 84)),
    ("Nm of glyphs", names_of("\\(bu", 64)),
    ("Nm of tabs", names_of("\\t", 128)),
    ("Nm of \\~", names_of("\\~", 128)),
    ("Nm of words of a letter", names_of("a ", 128)),
    ("Nm of words of a letter and tabs", names_of("a\t", 128)),
    ("Nm of words and of blanks", names_of("a \\h'999' ", 24)),
    ("Nm of blanks before words", names_of("\\h'999' a ", 24)),
    ("Nm of \\&", names_of("\\&", 128)),
    ("\\h'999'", blanks),
    ("tabs of columns", tabs_of_columns),
    ("cells of a letter", cells_of_a_letter),
    ("words of 128 letters", long_words),
]


def processor_time(text, name):
    """The least time of the processor, in seconds, that a page takes in three runs."""
    with open(name, "w", encoding="utf-8") as file:
        file.write(text)
    times = []
    for _ in range(3):
        before = resource.getrusage(resource.RUSAGE_CHILDREN)
        with open(name, "rb") as page:
            subprocess.run(["./mandoc", "-T", "utf8"], stdin=page, stdout=subprocess.DEVNULL, stderr=subprocess.DEVNULL, check=False)
        after = resource.getrusage(resource.RUSAGE_CHILDREN)
        times.append(after.ru_utime - before.ru_utime + after.ru_stime - before.ru_stime)
    return min(times)


def line_times(name, repeated=20):
    """Prints what one line of each kind takes."""
    plain = processor_time(PLAIN, name) * 1_000_000 / len(PLAIN)
    print(f"\n{'one line':34} {'milliseconds at a quarter, a half and all':>44}   1 MB of plain text ({plain * 1000:.1f} ms)")
    for kind, made in LINES_OF:
        times = []
        for part in (1, 2, 4):
            before, line = made(part)
            times.append((processor_time(before + line * repeated, name) - processor_time(before, name)) / repeated)
        print(f"{kind:34} " + "".join(f"{seconds * 1000:>15.2f}" for seconds in times) + f"{times[-1] / plain:>10.2f}", flush=True)


def timed(words, name):
    """Returns how a run over a page ended: its seconds, whatever its status, or what ended it."""
    begun = time.perf_counter()
    with open(name, "rb") as page:
        try:
            run = subprocess.run(words, stdin=page, stdout=subprocess.DEVNULL, stderr=subprocess.DEVNULL, timeout=LIMIT, check=False)
        except subprocess.TimeoutExpired:
            return f"over {LIMIT}"
    seconds = time.perf_counter() - begun
    return f"signal {-run.returncode}" if run.returncode < 0 else f"{seconds:.3f}"


def main():
    count = int(sys.argv[1]) if len(sys.argv) > 1 else COUNT
    other = shutil.which("mandoc")
    with tempfile.TemporaryDirectory() as room:
        name = f"{room}/page"
        print(f"{'page':34} {'bytes':>10} {'seconds at a quarter, a half and all':>38} {'peak in kB (own)':>17}" + (f"   of {other}" if other else ""))
        for kind, made in HOSTILE:
            times = []
            for part in (count // 4, count // 2, count):
                with open(name, "w", encoding="ascii") as file:
                    file.write(HEAD + made(part))
                times.append(timed(["./mandoc"], name))
            line = f"{kind:34} {os.path.getsize(name):10} " + "".join(f"{seconds:>13}" for seconds in times) + f"{peak_of(['./mandoc'], name):>17}"
            print(line + (f"   {timed([other, '-T', 'ascii'], name)}" if other else ""), flush=True)
        line_times(name)


if __name__ == "__main__":
    main()
