"""The contracts that are promised to who uses the program or its library, as docs/contracts.txt has them: the heads of public functions and traits with their
clauses, as they are in the code but for comments and attributes.

So a clause that is lost or weaker is a line of a commit. What a clause means is in `specs/`. `docs/check` compares the file with the code, and
`docs/check --write` writes it.
"""
import itertools
import re

from dependencies import files_of
from heads import first_of, parts_of
from rooms import lines
from sizes import TESTS

FILE = "docs/contracts.txt"
HEAD = """\
# What is promised: the public functions and traits of the program and of the crates that other programs use, with their clauses. `docs/check --write` writes
# this file; a clause that is lost or weaker wants its reason in the commit message. The last list has the public functions of all crates without a clause.
"""
# the program, and the crates that other programs call or whose items these give out again
CRATES = ("mandoc_runs", "mandoc_programs", "mandoc_formats", "mandoc_command", "page_laws", "page_engine", "page_engine_records", "page_engine_index",
    "page_fill", "page_fill_cells", "page_scopes", "page_scopes_nodes", "page_sets", "page_sets_lines", "page_roff_source", "page_roff_lines",
    "page_core_numbers", "page_core_escapes", "page_core_tables", "page_core_streams", "page_core_base")
CLAUSE = re.compile(r"\s*(?:ensures|proves)\b")


def is_public(part):
    """Whether a part of a source is a public function, or one of a public trait."""
    return part.function and (part.within.startswith("pub trait") or (" for " not in part.within and first_of(part.lines).strip().startswith("pub ")))


def public_functions(crate):
    """The public functions of a crate."""
    return [part for path in files_of(crate, ["src"]) if path.endswith(".rt") for part in parts_of(path) if is_public(part)]


def place_of(part):
    """Where a function is: its file, and the `impl` or `trait`."""
    within = part.within.removesuffix(" {")
    return part.path.removeprefix("crates/").replace("/src/", "/") + (f", {within}" if within else "")


def without_clause():
    """The public functions of all crates but those of tests that have no clause."""
    for crate in sorted(lines()):
        for part in public_functions(crate) if not TESTS.search(crate) else ():
            if not any(map(CLAUSE.match, part.lines)):
                yield f"{part.function}: {place_of(part)}"


def text():
    """What docs/contracts.txt has to say."""
    functions = (part for crate in CRATES for part in public_functions(crate))
    found = [HEAD]
    for place, parts in itertools.groupby(functions, place_of):
        rows = (line for part in parts for line in part.lines if not line.strip().startswith("#[") and line.strip() != "}")
        found += [f"\n== {place}\n", *(f"{row}\n" for row in rows)]
    return "".join([*found, "\n== without a clause\n", *(f"{line}\n" for line in without_clause())])
