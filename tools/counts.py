"""How many there are of each kind that the gate proves, tries and runs: as the files have them, and as docs/counts.txt says.

docs/counts.txt is the one place for these numbers: `docs/check` compares it with the files and the documents with it, and `tools/gate` compares it with what
was proved, tried and run. So a crate, an edit, a test or a case that is lost shows. `docs/check --write` writes it anew.
"""
import functools
import glob
import os
import re
import subprocess

from rooms import TOP, lines
from sizes import BOUND

# how much of the book `tools/define_check` computed
COMPUTED = [f"{what} of the book that cases compute, at least" for what in ("clauses", "branches")]
PRODUCT = "mandoc_cli"
FILE = "docs/counts.txt"
HEAD = """\
# How many there are of each kind that the gate proves, tries and runs. After a change: `docs/check --write`, and a number that is smaller wants its
# reason in the commit message.
"""
# The scripts that write or run cases, each with what these are called.
SCRIPTS = {"tools/worked": "worked pages", "tools/program_cases": "cases of the program", "contrib/check": "cases of contrib"}


def text_of(path):
    with open(f"{TOP}/{path}", encoding="utf-8", newline="") as file:
        return file.read()


def found_in(pattern, files):
    """How often a pattern is in the lines of files."""
    paths = glob.glob(f"{TOP}/{files}", recursive=True)
    return sum(len(re.findall(pattern, text_of(os.path.relpath(path, TOP)), re.M)) for path in paths)


def programs():
    """The crates that are programs."""
    return [crate for crate in sorted(lines()) if os.path.isfile(f"{TOP}/crates/{crate}/src/main.rt")]


def programs_of_cases():
    """Those that show what their input gives, case by case: all but the product."""
    return [crate for crate in programs() if crate != PRODUCT]


def cases_of(crate):
    """How many cases the input of a program has: its lines `== TITLE`, or where there is none, its lines below a heading `==== TITLE`, or else it is one."""
    text = text_of(f"crates/{crate}/stdin")
    if titles := re.findall("^== ", text, re.M):
        return len(titles)
    if not re.search("^==== ", text, re.M):
        return 1
    return sum(1 for line in text.split("\n") if line and not line.startswith(("#", "====")))


def tests_of(crate):
    return found_in(r"^\s*#\[test\]", f"crates/{crate}/src/**/*.rt")


def worked_pages_of(crate):
    return found_in(r"\{ Shows ", f"crates/{crate}/src/*.rt") if crate.startswith("page_worked") else 0


def edits(pattern):
    """The files of edits that a pattern finds, each with its crate: those of the gate are in `crates/*/must-fail/`, the others in `edits/*/`."""
    found = (os.path.relpath(path, TOP) for path in glob.glob(f"{TOP}/{pattern}"))
    return [(path, path.split("/")[1]) for path in sorted(found)]


def in_files():
    """The number of each kind, as the files have it."""
    crates, of_gate, others = sorted(lines()), edits("crates/*/must-fail/*"), edits("edits/*/*")
    found = {
        "crates": len(crates),
        "edits of the gate": len(of_gate),
        "crates with edits of the gate": len({crate for _, crate in of_gate}),
        "other edits": len(others),
        "crates with other edits": len({crate for _, crate in others}),
        "tests": sum(map(tests_of, crates)),
        **{f"cases of {crate}": cases_of(crate) for crate in programs_of_cases()},
    }
    for script, name in SCRIPTS.items():
        found[name] = int(subprocess.run([f"{TOP}/{script}", "--count"], check=True, capture_output=True, text=True).stdout)
    return found


def counts_text():
    """What docs/counts.txt has to say. Bounds stay as they are: that of lines is raised by hand, those of what is computed by `tools/define_check --write`."""
    rows = {**in_files(), **{name: number for name, number in stated().items() if is_bound(name)}}
    return HEAD + "".join(f"{name}: {number}\n" for name, number in rows.items())


def is_bound(name):
    return name.endswith((", at most", ", at least"))


@functools.lru_cache
def stated():
    """The number of each kind, as docs/counts.txt says."""
    rows = (line.rpartition(": ") for line in text_of(FILE).splitlines() if not line.startswith("#"))
    return {name: int(number) for name, _, number in rows}


def wrong_counts():
    """What docs/counts.txt says otherwise than the files have it."""
    said, there = stated(), in_files()
    for name in {**said, **there}:
        if not is_bound(name) and said.get(name) != there.get(name):
            yield f"{FILE}: {name}: {said.get(name, 'no number')}, and the files have {there.get(name, 'none')}"
    yield from (f"{FILE}: it lacks {name}" for name in (BOUND, *COMPUTED) if name not in said)
