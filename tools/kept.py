"""The verdicts on the edits of `edits/`, as edits/verdicts.txt keeps them: for each edit a hash of what its verdict depends on (dependencies.py), and what
refused it. `tools/edits` writes the file, and `docs/check` reports a verdict that is missing or stale, or that is no refusal by a clause.

The file can be written by hand, and what the hash leaves out may matter after all: so the gate tries some of the edits whatever the file says.
"""
import collections
import fcntl
import functools
import os
import re

from counts import edits, stated, text_of
from dependencies import hash_of, of_crate
from rooms import TOP
from verdicts import CLAUSE, kind_of

FILE = "edits/verdicts.txt"
HEAD = "# What refused each edit of edits/, with a hash of all that this depends on: `tools/edits` writes it.\n"
REFUSED = "refused: "
# how many edits may lack a verdict: a bound in docs/counts.txt, which is only lowered
UNTRIED = "edits without a verdict that holds, at most"
# what the prover said of an edit: the file, the line, and the goal that is not proved
GOAL = re.compile(r"(?:note: )?(?:\./)?(\S+?):(\d+):\d+: (?:error: |note: )?([^`]*(?:`([^`]+)`)?.*)")


@functools.lru_cache
def logic():
    """The logic of the kit that README trusts."""
    return re.search(r"the kit with the logic `(\w+)`", text_of("README.md").replace("\n", " "))[1]


def edits_of(names=()):
    """The edits with some names, each as its crate and its file: a name is that of a crate, or CRATE/EDIT; all edits where there is none."""
    found = [(path.removeprefix("edits/"), crate) for path, crate in edits("edits/*/*")]
    return [edit for edit, crate in found if not names or {crate, edit, edit.removesuffix(".edit")} & set(names)]


def hash_for(edit):
    """The hash of what the verdict on an edit depends on."""
    return hash_of([of_crate(edit.split("/")[0], logic()), text_of(f"edits/{edit}")])


def kept():
    """The verdicts in the file: for each edit a hash, and what refused it."""
    if not os.path.isfile(f"{TOP}/{FILE}"):
        return {}
    rows = (line.split(" ", 2) for line in text_of(FILE).splitlines() if not line.startswith("#"))
    return {edit: (found, said) for edit, found, said in rows}


def keep(verdicts):
    """Adds verdicts to the file, and drops those on edits that are gone. One run at a time does so, and replaces the whole file."""
    folder = os.open(f"{TOP}/edits", os.O_RDONLY)
    fcntl.flock(folder, fcntl.LOCK_EX)
    there, found = set(edits_of()), {**kept(), **verdicts}
    with open(f"{TOP}/{FILE}.new", "w", encoding="utf-8") as file:
        file.write(HEAD + "".join(f"{edit} {' '.join(found[edit])}\n" for edit in sorted(there & found.keys())))
    os.replace(f"{TOP}/{FILE}.new", f"{TOP}/{FILE}")
    os.close(folder)


def function_at(path, line):
    """The function that a line of a source is in, or whose attributes it is among."""
    rows = text_of(path).splitlines()
    while line < len(rows) and rows[line - 1].strip().startswith("#["):
        line += 1
    found = re.findall(r"\bfn (\w+)", "\n".join(rows[:line]))
    return found[-1] if found else ""


def in_short(edit, said):
    """What refused an edit: the function or the file of its proof, and the goal that is not proved; else all that the prover said."""
    crate = edit.split("/")[0]
    found = GOAL.match(said.removeprefix("refused, as it must be: "))
    if kind_of(said) != CLAUSE or not found:
        return re.sub(r"\s+", " ", said)
    path, line, words, goal = found.groups()
    source = f"crates/{crate}/{path}"
    function = function_at(source, int(line)) if path.endswith(".rt") and os.path.isfile(f"{TOP}/{source}") else ""
    return f"{REFUSED}{path}{f', {function}' if function else ''}: {goal or ' '.join(words.split())}"


def stale():
    """The edits of which no verdict is kept that still holds."""
    found = kept()
    return [edit for edit in edits_of() if found.get(edit, ("", ""))[0] != hash_for(edit)]


def wrong_verdicts():
    """What is wrong with the file: more edits without a verdict that holds than there may be, those that no clause refused, and those that are gone."""
    there, missing = set(edits_of()), collections.Counter(edit.split("/")[0] for edit in stale())
    if missing.total() > stated().get(UNTRIED, 0):
        yield from (f"{FILE}: {count} edits of {crate} have no verdict, or a stale one: make edits CRATES={crate}" for crate, count in missing.items())
    for edit, (_, said) in kept().items():
        if edit not in there:
            yield f"{FILE}: there is no edit {edit}"
        elif not said.startswith(REFUSED):
            yield f"{FILE}: {edit}: {said}"
