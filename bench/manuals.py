#!/usr/bin/env python3
"""Compares real pages with what the `mandoc` on the PATH prints of them (usage: bench/manuals.py FOLDER [LISTED [LANGUAGE]]).

FOLDER holds pages as they are installed, packed or not, in any folders below it; those of the language are taken, man(7) unless it is `mdoc`.
Pages with tables, equations or pictures, pages that only name another one, pages with macros of mdoc(7) that print a text which the
profile has not (`At Lb St`) or put one in another order (`Rs`), links, and pages with the same bytes as one before are left aside. Headers and footers are left aside too, with the blank rows beside them. Printed are two
shares of the pages: those with the same words in the same order, and those with the same rows, margins and blank rows too. For the first
LISTED pages (default 20) whose words differ, and for as many with the same words in other rows, it prints where they first differ: ours,
then the other's. Blanks at a row's end do not count. Ours is ./mandoc, or the program that the variable PROGRAM names.
"""
import gzip
import itertools
import os
import re
import subprocess
import sys

DATE = re.compile(rb"^[.'][ \t]*Dd\b", re.M)
TITLE = re.compile(rb"^[.'][ \t]*TH\b", re.M)
LEFT_ASIDE = {
    "man": re.compile(rb"^[.'][ \t]*(TS|EQ|PS|so)\b", re.M),
    "mdoc": re.compile(rb"^[.'][ \t]*(TS|EQ|PS|so)\b|^[.'].*\b(At|Lb|St|Rs)\b", re.M),
}
BROKEN = re.compile(rb"([A-Za-z]-)\n *(?=[A-Za-z])")
OPTIONS = ["-T", "ascii", "-O", "width=78"]
OURS = os.environ.get("PROGRAM", "./mandoc")


def language_of(page):
    """Returns the language of a page, None where it has no title of either."""
    if DATE.search(page):
        return "mdoc"
    return "man" if TITLE.search(page) else None


def pages(folder, language):
    """Yields the name and the bytes of each page of a language, in the order of their names."""
    came = set()
    for base, folders, names in os.walk(folder):
        folders.sort()
        for name in sorted(names):
            path = os.path.join(base, name)
            if os.path.islink(path) or not os.path.isfile(path):
                continue
            opening = gzip.open if name.endswith(".gz") else open
            with opening(path, "rb") as file:
                page = file.read()
            if page not in came and language_of(page) == language and not LEFT_ASIDE[language].search(page):
                came.add(page)
                yield os.path.relpath(path, folder), page


def body(program, page):
    """Returns the rows of a page's body, without overstrikes: those between the first blank row and the last one, as a header or a footer may take
    several rows."""
    run = subprocess.run([program, *OPTIONS], input=page, stdout=subprocess.PIPE, stderr=subprocess.DEVNULL, check=False)
    rows = trimmed([row.rstrip() for row in re.sub(rb".\x08", b"", run.stdout).split(b"\n")])
    blank = [place for place, row in enumerate(rows) if not row]
    return trimmed(rows[blank[0] : blank[-1]]) if blank else []


def trimmed(rows):
    """Returns rows without the blank ones at both ends."""
    printed = [place for place, row in enumerate(rows) if row]
    return rows[printed[0] : printed[-1] + 1] if printed else []


def words(rows):
    """Returns the words of rows; one in which a row ends, after a hyphen between two letters, is taken as a whole."""
    return BROKEN.sub(rb"\1", b"\n".join(rows)).split()


def difference(ours, others, before, after):
    """Returns what stands around the first place where two lists differ, from each of them; None where they don't."""
    for place, (our, other) in enumerate(itertools.zip_longest(ours, others)):
        if our != other:
            start = max(place - before, 0)
            return ours[start : place + after], others[start : place + after]
    return None


def shown(some, between):
    return between.join(some).decode("utf-8", "replace")


def show_words(name, found):
    print(f"{name}\n  ours:   {shown(found[0], b' ')}\n  mandoc: {shown(found[1], b' ')}")


def show_rows(name, found):
    """Shows rows of both, each on a line of its own after a bar."""
    ours, others = (shown([b"", *rows], b"\n    |") for rows in found)
    print(f"{name}, the same words in other rows\n  ours:{ours}\n  mandoc:{others}")


def share(same, count, what):
    return f"{same} of {count} pages have the same {what} ({same / count:.1%})"


def main():
    folder = sys.argv[1]
    listed = int(sys.argv[2]) if len(sys.argv) > 2 else 20
    language = sys.argv[3] if len(sys.argv) > 3 else "man"
    count, same_words, same_rows = 0, 0, 0
    for name, page in pages(folder, language):
        count += 1
        ours, others = body(OURS, page), body("mandoc", page)
        found = difference(words(ours), words(others), 4, 6)
        if found is not None:
            if count - same_words <= listed:
                show_words(name, found)
            continue
        same_words += 1
        found = difference(ours, others, 1, 2)
        if found is None:
            same_rows += 1
        elif same_words - same_rows <= listed:
            show_rows(name, found)
    print(f"{share(same_words, count, 'words')}\n{share(same_rows, count, 'rows')}" if count else f"no page of {language}(7)")


if __name__ == "__main__":
    main()
