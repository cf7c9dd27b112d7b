#!/usr/bin/env python3
"""Refuses each allocation in turn to runs of the program itself (usage: bench/refusals_program.py PROGRAM, linked dynamically).

Where one is refused, the run is as ever, or it ends with status 6 and reports it: `mandoc: out of memory`, or `mandoc: FILE: out of memory`. What is on
standard output is that of whole files, an index is the old one or one of whole lines, and no unfinished one is left.
"""
import os
import shutil
import subprocess
import sys
import tempfile

sys.path.append(os.path.join(os.path.dirname(os.path.abspath(__file__)), "../tools"))
from cases.memory import REFUSING, library_in

ONE = ".TH ONE 1 2020-01-01 S\n.SH NAME\none \\- first\n.SH A\ntext\n"
TWO = ".Dd 2020-01-01\n.Dt TWO 1\n.Os S\n.Sh NAME\n.Nm two\n.Nd second\n.Sh A\n.ZZ\n.Bl -tag -width 4n\n.It a\nb\n.El\n"
OLD = "whatis 2\nold\t1\tan old entry\tman1/old.1\n"

# The runs: their words, what they read, and the runs of whose outputs theirs may be made: none where it is one whole, None where it is of lines.
RUNS = [
    (["one.1"], "", [["one.1"]]),
    ([], ONE, []),
    (["-W", "all", "one.1", "two.1"], "", [["-W", "all", "one.1"], ["-W", "all", "two.1"]]),
    (["-T", "lint", "two.1"], "", []),
    (["-X"], "", []),
    (["makewhatis", "D"], "", []),
    (["makewhatis", "-n", "D"], "", None),
    (["whatis", "-M", "D", "old"], "", []),
]


def lay_out(room):
    """Makes the files that runs find."""
    os.makedirs(f"{room}/D/man1")
    for name, text in (("one.1", ONE), ("two.1", TWO), ("D/man1/one.1", ONE), ("D/man1/two.1", TWO), ("D/whatis.idx", OLD)):
        with open(f"{room}/{name}", "w") as file:
            file.write(text)


def given(program, library, words, text, refused):
    """Returns status, output, messages, index and the names in D of a run in which the allocation of this number is refused, 0 for none."""
    with tempfile.TemporaryDirectory() as room:
        lay_out(room)
        env = dict(os.environ, LD_PRELOAD=library, FAIL_AT=str(refused))
        done = subprocess.run([program, *words], input=text, env=env, cwd=room, capture_output=True, text=True)
        with open(f"{room}/D/whatis.idx") as file:
            index = file.read()
        return done.returncode, done.stdout, done.stderr, index, sorted(os.listdir(f"{room}/D"))


def joined(parts):
    """Each text that is made of some of these parts, in their order."""
    texts = [""]
    for part in parts:
        texts += [text + part for text in texts]
    return texts


def is_index(text):
    """Whether a text is an index of whole lines."""
    lines = text.split("\n")
    return lines[0] == "whatis 2" and lines[-1] == "" and all(line.count("\t") == 3 for line in lines[1:-1])


def fault_of(run, whole, outputs):
    """Returns what a run does not keep to in which an allocation is refused, or None."""
    status, output, messages, index, names = run
    if run == whole:
        return None
    is_told = any(line.startswith("mandoc: ") and line.endswith("out of memory") for line in messages.split("\n"))
    if status != 6 or not is_told:
        return f"ended with {status} and '{messages}'"
    if output not in outputs:
        return "wrote a part of a file"
    if index not in (OLD, whole[3]) and not is_index(index):
        return "left a part of an index"
    return None if names == ["man1", "whatis.idx"] else f"left {names}"


def tried(program, library, words, text, files):
    """Refuses each allocation in turn. Returns how many there are, and what is not kept to, or None."""
    whole = given(program, library, words, text, 0)
    if files is None:
        parts = whole[1].splitlines(keepends=True)
    else:
        parts = [given(program, library, file, "", 0)[1] for file in files] or [whole[1]]
    outputs = joined(parts)
    for refused in range(1, 10_000):
        run = given(program, library, words, text, refused)
        fault = fault_of(run, whole, outputs)
        if fault:
            return refused, f"where allocation {refused} is refused: {fault}"
        if is_past(program, library, words, text, refused):
            return refused - 1, None
    return 10_000, "asks for memory without end"


def is_past(program, library, words, text, refused):
    """Whether a run makes fewer allocations than this number."""
    env = dict(os.environ, LD_PRELOAD=library, FAIL_AT=str(refused), FAIL_TOLD="1")
    with tempfile.TemporaryDirectory() as room:
        lay_out(room)
        done = subprocess.run([program, *words], input=text, env=env, cwd=room, capture_output=True, text=True)
    return "-- refused" not in done.stderr


# The allocator of `refusals`, which says on standard error where it is asked to that it refused a call.
REPORTING = REFUSING.replace("return ++calls == refused;", """int is_now = ++calls == refused;
    if (is_now && getenv("FAIL_TOLD")) { long sent = write(2, "-- refused\\n", 11); (void) sent; }
    return is_now;""").replace("#include <stdlib.h>", "#include <stdlib.h>\n#include <unistd.h>")


def main():
    program = os.path.abspath(sys.argv[1])
    bad = 0
    with tempfile.TemporaryDirectory() as room:
        library = library_in(room, REPORTING)
        for words, text, files in RUNS:
            count, fault = tried(program, library, words, text, files)
            bad += fault is not None
            print(f"mandoc {' '.join(words)}: {fault or f'{count} allocations'}")
    print(f"{len(RUNS)} runs of the program, {bad} of them bad")
    sys.exit(bool(bad))


if __name__ == "__main__":
    main()
