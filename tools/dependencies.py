"""What the verdict on an edit depends on, as a hash: the logic of the kit, the edit, all texts of its crate, and of the crates below it what it can reach:
types, constants, traits, the heads of functions with their clauses, and definitions. Where one of these changes, the verdict is stale.

Comments are left out, and of the crates below the bodies of functions and the proofs: they can't change what a clause admits. A definition is reached by
the `use` lines of what names it, an item of the code by its name alone, in whatever crate below it is: so rather too much is reached than too little.
"""
import functools
import glob
import hashlib
import os
import re

from counts import text_of
from heads import ITEM, bare, parts_of
from rooms import TOP, lines, with_used
from specs import WORD, Definitions, imports

# the folders of a crate that a proof reads
FOLDERS = ("src", "specs", "proofs")
# in code: what is called, or brought in
CALL = re.compile(r"\b([a-z_]\w*)!?(?:::<[^>]*>)?\(|::([a-z_]\w*)")
USE = re.compile(r"^ *(?:pub )?use [^;]+;", re.M)


def files_of(crate, folders=FOLDERS):
    """The files of a crate that a proof reads."""
    found = (it for folder in folders for it in glob.glob(f"{TOP}/crates/{crate}/{folder}/**/*", recursive=True) if os.path.isfile(it))
    return sorted(os.path.relpath(it, TOP) for it in found)


@functools.lru_cache(maxsize=None)
def rows_of(path):
    """The lines of a file, without comments."""
    return bare(text_of(path))


@functools.lru_cache(maxsize=None)
def brought(path):
    """What a file brings in; in code a module inside of a file may do so too."""
    return imports(re.sub(r"^ +(?=ghost use)", "", text_of(path), flags=re.M))


@functools.lru_cache(maxsize=None)
def names_in(path):
    """The names in a file that may be those of items of the code."""
    text = "\n".join(rows_of(path))
    called = {one or other for one, other in CALL.findall(text)} | {name for use in USE.findall(text) for name in re.findall(r"\w+", use)}
    return {*ITEM.findall(text), *(called if path.endswith(".rt") else ())}


@functools.lru_cache(maxsize=None)
def cited_by(part):
    """The words of a part of the code, by which it names definitions, and its names of items of the code."""
    text = "\n".join(part.lines)
    return WORD.findall(text), set(ITEM.findall(text))


class Reached:
    """What a crate reaches of those below it."""

    # the names of items of the code in each definition that was read, by its lines
    items = {}

    def __init__(self, crate):
        self.definitions, self.parts, self.named = Definitions(), set(), {}
        for path in (it for name in sorted(with_used([crate]) - {crate}) for it in files_of(name, ["src"])):
            for part in parts_of(path):
                for name in part.names:
                    self.named.setdefault(name, []).append(part)
        own = files_of(crate, ["src", "specs"])
        for path in own:
            self.cite(path, WORD.findall(" ".join(rows_of(path))))
        self.reach({name for path in own for name in names_in(path)})

    def cite(self, path, words):
        """Reaches the definitions that words of a file name."""
        for at, name in self.definitions.named(brought(path), words):
            self.definitions.reach(at, name)

    def reach(self, names):
        """Reaches the items of the code that have one of these names, and all that these rest on."""
        seen = set()
        while names := (names | self.names_of_definitions()) - seen:
            seen |= names
            new = {part for name in names for part in self.named.get(name, ())} - self.parts
            self.parts |= new
            names = set()
            for part in new:
                words, items = cited_by(part)
                self.cite(part.path, words)
                names |= items

    def names_of_definitions(self):
        """The names of items of the code in the definitions that are reached so far."""
        found = set()
        for definitions in self.definitions.reached.values():
            for key, rows in definitions.items():
                if key not in self.items:
                    self.items[key] = set(ITEM.findall("\n".join(rows)))
                found |= self.items[key]
        return found

    def texts(self):
        """What is reached, as texts."""
        definitions = (f"{path}\n" + "\n".join(bare("\n".join(rows))) for path, found in self.definitions.reached.items() for rows in found.values())
        return sorted({*definitions, *("\n".join([part.path, part.within, *part.lines]) for part in self.parts)})


def hash_of(texts):
    found = hashlib.sha256()
    for text in texts:
        found.update(f"{len(text)}\n{text}".encode())
    return found.hexdigest()[:16]


@functools.lru_cache(maxsize=None)
def of_crate(crate, logic):
    """The hash of what the verdicts on a crate's edits depend on, but for the edits."""
    own = ("\n".join([path, *rows_of(path)]) for path in files_of(crate))
    return hash_of([logic, lines()[crate], *own, *Reached(crate).texts()])
