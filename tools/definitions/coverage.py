"""Which clauses of definitions, and which branches of their `if`, are computed. `count` is to be called before the first definition is compiled.

Each clause and each branch has a number, and `reached` has the numbers of those that were computed. A clause is told by its module, its definition and
its place in it; a branch by its clause, the place of its `if` there, and `then` or `else`.
"""
import os
import re

from .code import Writer
from .pages import TOP

marks, texts, reached = {}, {}, set()


class Counting(Writer):
    """Writes functions that note each clause and branch that they compute."""

    def __init__(self, program, name):
        super().__init__(program, name)
        self.tests = {}

    def mark(self, test=None, branch=None):
        reader, at = self.clause
        key = (reader.module.name, reader.name, at)
        if branch:
            # (a `let` that two branches use is written twice: it is one term)
            tests = self.tests.setdefault(at, [])
            if not any(it is test for it in tests):
                tests.append(test)
            key = (*key, next(index for index, it in enumerate(tests, 1) if it is test), branch)
        texts[key] = " ".join(map(str, reader.words[:12]))
        return f"reach({marks.setdefault(key, len(marks))})"


def count(program):
    """Has a program note what it computes."""
    program.writer = Counting
    program.room["reach"] = reached.add


def is_clause(key):
    return len(key) == 3


def places(keys):
    """Where clauses and branches are: file and line, and what of the clause it is."""
    for key in keys:
        _, crate, folder, *names = key[0].split(".")
        path = f"crates/{crate}/{folder}/{'/'.join(names)}.antt"
        with open(os.path.join(TOP, path), encoding="utf-8") as file:
            heads = [at for at, line in enumerate(file, 1) if is_head(line.strip(), key[1])]
        # (the first such line is the signature)
        at = heads[key[2] + 1] if key[2] + 1 < len(heads) else (heads or [0])[-1]
        yield f"{path}:{at}: {texts[key]}" + ("" if is_clause(key) else f" .. the {key[4]} of its {key[3]}. if")


def is_head(line, name):
    """Whether a line begins the signature of a definition or a clause of it."""
    words = re.sub(r"^(?:(?:abbrev|unfoldable|pub|opaque) )*", "", line).split()
    return words[:1] == [name] or name.startswith("◌") and name.strip("◌") in words[1:]
