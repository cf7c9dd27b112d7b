"""The definitions in `specs/`: what each file brings in and defines, and which definitions one of them rests on."""
import os
import re

from counts import text_of
from rooms import TOP

# where a name ends
WORD = re.compile(r"[^\s(){}\[\],;.λ]+")
HEAD = re.compile(r"(?:(?:abbrev|unfoldable|opaque|pub)\s+)*(?:record\s+|data\s+)?(\S+)")


def imports(text):
    """What `use` lines bring in, by the name that it has here: a module and a name, or a module alone."""
    found = {}
    for use in re.findall(r"^(?:pub |unfoldable |ghost )*use ([^\n;]+(?:\n[ \t}][^\n;]*)*)", text, re.M):
        path, brace, names = use.partition("{")
        module = path.strip().rstrip(".")
        if not brace:
            module, _, alias = module.partition(" as ")
            found[(alias or module.rsplit(".", 1)[-1]).strip()] = (module.strip(), None)
            continue
        for name in names.rstrip("} \n;").split(","):
            name, _, alias = name.strip().partition(" as ")
            found[alias or name] = (module, name)
    return found


def lines_of(text):
    """The lines of a file; what stands in a module without a name, or in a group of functions that call one another, stands further left."""
    inside = 0
    for line in text.splitlines():
        begins = len(line) - len(line.lstrip())
        if line.strip():
            inside = min(inside, begins)
        if re.fullmatch(r"(\w+ )*mutual", line.strip()) or line[inside:].startswith("module "):
            inside = begins + 2
            continue
        yield line[inside:]


def items(text):
    """The definitions of a file by name, each with its lines; a constructor and its type are one definition."""
    found, current = {}, None
    for line in lines_of(text):
        if line.startswith(("use ", "pub use ", "unfoldable use ", "--", "mod ", "pub mod ")):
            current = None
        elif line and line[0] not in " })":
            name = HEAD.match(line)[1]
            is_type = re.match(r"(?:\S+ )*(?:record|data) ", line)
            if name not in found:
                found[name] = []
            current = found[name]
            current.append(line)
            continue
        if current is not None and line.strip():
            current.append(line)
            constructor = re.match(r"  ([^\s:(){}.]+) :", line)
            if constructor and is_type:
                found.setdefault(constructor[1], current)
    return found


class Definitions:
    """The definitions of all crates, and those that are reached from one of them."""

    # what is read once, for all that ask: files by path, and what each definition names, by its lines
    files, cited = {}, {}

    def __init__(self):
        self.reached = {}

    def file(self, module):
        """A file of definitions, by the name of its module; none for one of the library, or a type of the program."""
        parts = module.split(".")
        if len(parts) < 4 or parts[0] != "Rattle" or parts[2] != "specs":
            return None
        deep = parts[3] in ("machine", "laws") and len(parts) > 4
        path = f"crates/{parts[1]}/specs/{'/'.join(parts[3:5] if deep else parts[3:4])}.antt"
        if path not in self.files:
            is_there = os.path.isfile(os.path.join(TOP, path))
            text = text_of(path) if is_there else ""
            self.files[path] = (imports(text), items(text)) if is_there else None
        return path if self.files[path] else None

    def reach(self, path, name):
        """Reaches a definition, and all that it speaks of."""
        waiting = [(path, name)]
        while waiting:
            path, name = waiting.pop()
            brought, own = self.files[path]
            if name not in own and name in brought:
                waiting += self.named(brought, [name])
                continue
            lines = own.get(name)
            if lines is None or id(lines) in self.reached.setdefault(path, {}):
                continue
            self.reached[path][id(lines)] = lines
            if id(lines) not in self.cited:
                words = WORD.findall(" ".join(re.sub(r"--.*", "", line) for line in lines))
                self.cited[id(lines)] = {(path, word) for word in words if word in own} | set(self.named(brought, words))
            waiting += self.cited[id(lines)]

    def named(self, brought, words):
        """The definitions that words name, by what `use` lines bring in; a module that is brought in whole stands before its name."""
        found = []
        for word, after in zip(words, [*words[1:], ""]):
            module, name = brought.get(word, (None, None))
            path = self.file(module) if module else None
            if path:
                found.append((path, name or after))
        return found
