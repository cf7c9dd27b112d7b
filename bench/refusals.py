#!/usr/bin/env python3
"""Refuses each allocation in turn to runs over the pages of page_engine_cases (usage: bench/refusals.py [--few] PROGRAM). With --few it takes some
of the pages, without a cut, and its last line is 'N passed, M failed': the gate runs that.

The program feeds a page line by line, first to a page and then to roff alone. What is not theirs has its memory before they are made; after
the end of each the program makes one allocation of its own. So where an allocation is refused, there is either no page, or no roff, or the one
refused is one of those two, and what is given is the same: a page and roff ask for nothing once they are made.

Then each page is run with a cut after each of its lines in turn: page and roff are put down there and go on from what is held of them. Where an
allocation of that is refused, the program reports it, and gives the same: the page goes on as it is, or from what came back when it is tried once more.
Each cut asks for as many allocations as any other, so nothing that is held grows with the page; and after it nothing is asked for either.
"""
import concurrent.futures
import os
import re
import subprocess
import sys
import tempfile

sys.path.append(os.path.join(os.path.dirname(os.path.abspath(__file__)), "../tools"))
from cases.memory import library_in

PUT_DOWN = b"-- no memory to put it down\n"
GO_ON = b"-- no memory to go on\n"
AFTER_PAGE = b"-- no memory after the page\n"
NO_ROFF = b"-- not by roff alone\n"
AFTER_ROFF = b"-- no memory after roff\n"
# Of how many pages one is among few.
APART = 40
STAGES = (PUT_DOWN, GO_ON, AFTER_PAGE, NO_ROFF, AFTER_ROFF)

# Words of pages that are to fail otherwise, or are refused memory by the program.
FAILING = re.compile(rb"rows=|messages=|width=57|width=301|indent=21|scarce=")


class Bad(Exception):
    """What a page does not keep to."""


def given(program, library, page, refused):
    """Returns what a run shows in which the allocation of this number is refused, 0 for none."""
    env = dict(os.environ, LD_PRELOAD=library, FAIL_AT=str(refused))
    return subprocess.run([program], input=page, env=env, stdout=subprocess.PIPE, stderr=subprocess.DEVNULL).stdout


def first_of(program, library, page, whole):
    """Returns the number of the first allocation that is not the program's own: those before it, by which it makes room on its stack, change nothing."""
    with tempfile.NamedTemporaryFile() as file:
        env = dict(os.environ, LD_PRELOAD=library, FAIL_AT="0", CALLS_TO=file.name)
        subprocess.run([program], input=page, env=env, stdout=subprocess.DEVNULL, stderr=subprocess.DEVNULL)
        low, high = 3, int(open(file.name).read())
    while low < high:
        middle = (low + high) // 2
        if given(program, library, page, middle) == whole:
            low = middle + 1
        else:
            high = middle
    return low


def stage_of(shown, whole, refused):
    """Returns the line that a run prints in which the allocation of this number is refused, or None where there is no page."""
    lines = [line for line in STAGES if line in shown]
    if not lines and b"-- source" in shown:
        raise Bad(f"is there, but for what it gives, where allocation {refused} is refused")
    if lines and shown.replace(lines[0], b"") != whole:
        raise Bad(f"gives something else where allocation {refused} is refused")
    return lines[0] if lines else None


def tellings(program, library, page, first=None):
    """Refuses each allocation in turn from that of a number on, up to the one after roff. Returns the number of the first that is reported, and what
    is reported from there on: each line, and how often it comes before the next one."""
    whole = given(program, library, page, 0)
    first = first or first_of(program, library, page, whole)
    begin, lines = 0, []
    for refused in range(first, first + 10_000):
        line = stage_of(given(program, library, page, refused), whole, refused)
        if line is None and begin:
            raise Bad(f"is not there where allocation {refused} is refused")
        if line is None:
            continue
        begin = begin or refused
        if not lines or lines[-1][0] != line:
            lines.append((line, 0))
        lines[-1] = (line, lines[-1][1] + 1)
        if line == AFTER_ROFF:
            return begin, lines
    raise Bad("asks for memory without end")


def cut_after(page, number):
    """The page with a cut after the line of a number, which its title names."""
    title, rest = page.split(b"\n", 1)
    shows = re.sub(rb"^== (cut=\d+: )?", b"", title)
    return b"== cut=%04d%s%s\n%s" % (number, b" " if b": " in shows else b": ", shows, rest)


def cuts_of(program, library, page):
    """Runs a page without a cut, and cut after each of its lines in turn. Returns the lines that are printed at a cut, each with how often, which all of
    its cuts have."""
    uncut = cut_after(page, 0)
    begin, without = tellings(program, library, uncut)
    source = int(re.search(rb"-- source (\d+)", given(program, library, uncut, 0))[1])
    found = []
    for number in range(1, page.count(b"\n")):
        lines = tellings(program, library, cut_after(page, number), begin)[1]
        # the second one of two lines that are joined has no number
        if lines != without:
            found.append(lines)
    if len(found) != source:
        raise Bad(f"was cut {len(found)} times, and has {source} lines")
    if any(lines != found[0] for lines in found):
        raise Bad("asks for more at one cut than at another")
    return found[:1]


def tried(program, library, page, is_cut):
    """Returns what is printed at the cuts of a page, and what it does not keep to, or None."""
    try:
        if not is_cut:
            tellings(program, library, cut_after(page, 0))
            return [], None
        return cuts_of(program, library, page), None
    except Bad as bad:
        return [], str(bad)


def main():
    program, are_few = os.path.abspath(sys.argv[-1]), "--few" in sys.argv[1:-1]
    cases = os.path.join(os.path.dirname(os.path.abspath(__file__)), "../crates/page_engine_cases/stdin")
    with open(cases, "rb") as file:
        pages = re.split(rb"(?m)^(?=== )", file.read())[1:]
    pages = [page for page in pages if not FAILING.search(page.split(b"\n", 1)[0])]
    pages = [page for page in pages[::APART] if page.count(b"\n") > 2] if are_few else pages
    bad, all_cuts = 0, []
    with tempfile.TemporaryDirectory() as room:
        library = library_in(room)
        with concurrent.futures.ThreadPoolExecutor(os.cpu_count()) as pool:
            for page, (cuts, fault) in zip(pages, pool.map(lambda page: tried(program, library, page, not are_few), pages)):
                all_cuts += cuts
                if fault:
                    bad += 1
                    print(f"{page.split(bytes([10]), 1)[0].decode()}: {fault}")
    if are_few:
        print(f"{len(pages) - bad} passed, {bad} failed")
        sys.exit(bool(bad))
    for line, count in all_cuts[0] if all_cuts else []:
        print(f"{count:3} times {line.decode().strip()}")
    if any(cuts != all_cuts[0] for cuts in all_cuts):
        bad += 1
        print("the cuts of one page ask for more than those of another")
    print(f"{len(pages)} pages, {bad} of them bad")
    sys.exit(bool(bad))


if __name__ == "__main__":
    main()
