"""Files of definitions: what each declares and brings in, and what a name stands for there. No proof is read, and no type but one that is asked
for as a statement: a record of values then says that all its fields hold, and `×`, `→`, `≡` and `≤` are what they say of values that are there.

A module's name tells where its file is: `Rattle.CRATE.specs.A.B` is `CRATE/specs/A/B.antt` among the crates, or in the kit. What a file passes on
(`pub use`) is looked for where it comes from. A type of the program (`specs.declared`) has no definitions but its constructors, which
`TheVariants` brings in; what is declared in a folder `proofs`, or is a law of the naturals, is a proof.
"""
import os
import re

# The folders of the logic's own modules, below the kit's folder.
FOLDERS = {"mathlib": "antt/port/mathlib/src", "native": "antt/lib/native/src"}
PROOFS = {"proofs", "native"}
# a statement of the kit for which it has a test, and that test
TESTS = {("Rattle.core.specs.Str", "IsUtf8"): "is_utf8"}
# what is built into the logic's own language
LOGIC = "logic"
MARKS = re.compile(r"(?:(?:pub|abbrev|unfoldable|pattern|axiom|ghost)\s+)+")
# a name, its levels if it has some, and a type
SIGNATURE = re.compile(r"(\S+)(?:\s+\{[^{}]*\})?\s+:\s")
# the head of a record about values, whose name says that it is a statement
STATEMENT = re.compile(r"record Is\w+( \(\w+ : [^()]+\))+ : Type 0 where")
COMMENT = re.compile(r'("(?:[^"\\\n]|\\.)*")|\{-.*?-\}|(?<!\S)--[^\n]*', re.S)
TOKEN = re.compile(r'"(?:[^"\\]|\\.)*"|[(){};,λ]|\.|[^\s(){};,.λ"]+')


class Unreadable(Exception):
    """A text that is no definition of the kind that is read here."""


class Declaration:
    """A definition: its clauses, each a text, and the parameters of the modules without a name around it, each with its module."""

    def __init__(self, module, name, parameters):
        self.module, self.name, self.parameters, self.clauses = module, name, parameters, []


class Module:
    """What a file declares, and the names that it brings in: each from a module, or a module's own. What names stand for is found once."""

    def __init__(self, name):
        self.name = name
        self.own, self.constructors, self.types = {}, set(), set()
        self.brought, self.aliases, self.fixities = {}, {}, {}
        self.meanings, self.operators = {}, {}


class Meaning:
    """What a name stands for: a definition, a constructor, something given, a type or a proof."""

    def __init__(self, kind, name, what=None):
        self.kind, self.name, self.what = kind, name, what


def margin(line):
    return len(line) - len(line.lstrip())


def items(lines, parameters=()):
    """The items of lines, each a text with the parameters of the modules without a name around it."""
    at = 0
    while at < len(lines):
        end = at + 1
        while end < len(lines) and (margin(lines[end]) > margin(lines[at]) or lines[end].lstrip()[0] in ")}]"):
            end += 1
        item = lines[at:end]
        head = item[0].strip()
        if re.fullmatch(r"(\w+ )*mutual", head):
            yield from items(item[1:], parameters)
        elif head.startswith("module _"):
            inside = next(index for index, line in enumerate(item) if line.endswith("where")) + 1
            groups = re.findall(r"\(([^:()]+) :", " ".join(item[:inside]))
            here = object()
            yield from items(item[inside:], (*parameters, *((here, name) for name in " ".join(groups).split())))
        else:
            yield "\n".join(item).strip(), parameters
        at = end


def brought_by(text):
    """What a `use` line brings in, as (module, name, name here); the name is `None` where it is the module itself."""
    path, brace, names = " ".join(text.split()).partition("{")
    if not brace:
        module, _, alias = path.partition(" as ")
        yield module.strip(), None, alias.strip() or module.strip().rpartition(".")[2]
        return
    for name in names.rpartition("}")[0].split(","):
        name, _, alias = name.strip().partition(" as ")
        if name:
            yield path.strip().rstrip("."), name, alias or name


class Files:
    """The modules that have been read. `given` has what is not read, by module and name."""

    def __init__(self, crates, kit, given):
        self.crates, self.kit, self.given, self.modules = crates, kit, given, {}

    def path(self, name):
        """The file of a module, if there is one; that of a crate's definitions as a whole is `Lib.antt`."""
        first, *rest = name.split(".")
        if first == "Rattle":
            folders = [f"{self.crates}/{rest[0]}", f"{self.kit}/{rest[0]}"]
            inner = "/".join(rest[2:]) or "Lib"
            paths = [f"{folder}/{rest[1]}/{inner}.antt" for folder in folders] if len(rest) > 1 else []
        else:
            paths = [f"{self.kit}/{FOLDERS.get(first, f'logic/{first.capitalize()}')}/{'/'.join(rest)}.antt"]
        return next((path for path in paths if os.path.isfile(path)), None)

    def module(self, name):
        """A module by its name, or by one under which another module passes it on."""
        if name not in self.modules:
            path = self.path(name)
            above, _, last = name.rpartition(".")
            if path:
                self.read(self.modules.setdefault(name, Module(name)), path)
                return self.modules[name]
            outer = self.module(above) if above.count(".") > 0 else None
            if outer is None:
                self.modules[name] = None
            elif last in outer.aliases:
                self.modules[name] = self.module(outer.aliases[last])
            else:
                self.modules[name] = self.module(f"{outer.name}.{last}") if outer.name != above else None
        return self.modules[name]

    def read(self, module, path):
        with open(path, encoding="utf-8") as file:
            text = COMMENT.sub(lambda found: found[1] or "", file.read())
        current = None
        for item, parameters in items([line.rstrip() for line in text.split("\n") if line.strip()]):
            marks = MARKS.match(item)
            item = item[marks.end():] if marks else item
            word, _, rest = item.partition(" ")
            if word == "use":
                self.bring(module, rest)
            elif word in ("infix", "infixl", "infixr"):
                level, *names = rest.split()
                module.fixities.update({name: (int(level), word[5:]) for name in names})
            elif word in ("data", "record"):
                self.declare_type(module, item)
            elif word not in ("mod", "unfolding", "open", "ruleset"):
                current = self.declare(module, item, parameters, current)

    def bring(self, module, text):
        for path, name, here in brought_by(text):
            if name is None:
                module.aliases[here] = path
            else:
                module.brought[here] = (path, name)

    def declare_type(self, module, text):
        """A type, with its constructors if it has some: names before a colon, in lines that are as far in as the first."""
        head, *lines = text.split("\n")
        module.types.add(head.split()[1])
        if STATEMENT.fullmatch(head) and all(margin(line) == margin(lines[0]) for line in lines):
            self.declare_statement(module, head, lines)
        if head.startswith("data"):
            for line in lines:
                if margin(line) == margin(lines[0]):
                    module.constructors.update(line.partition(" :")[0].split())

    def declare_statement(self, module, head, fields):
        """A record of statements about values, as the definition of what it says of them: that each of its fields holds."""
        name, given = head.split()[1], " ".join(re.findall(r"\((\w+) :", head))
        own = module.own[name] = Declaration(module, name, ())
        own.clauses.append(f"{name} {given} = {' × '.join('(' + field.partition(' : ')[2] + ')' for field in fields)}")

    def declare(self, module, text, parameters, current):
        """A signature begins a definition, and each item after it that is none is a clause of it."""
        signature = SIGNATURE.match(text)
        if signature:
            current = module.own[signature[1]] = Declaration(module, signature[1], parameters)
        elif current is not None:
            current.clauses.append(text)
        return current

    # ---- names

    def meaning(self, module, name):
        """What a name stands for in a module; none if it has no such name."""
        name = TESTS.get((module.name, name), name)
        if (module.name, name) in self.given:
            return Meaning("given", name, (module.name, name))
        if name in module.own:
            is_proof = PROOFS & set(module.name.split("."))
            return Meaning("proof" if is_proof else "definition", name, module.own[name])
        if name in module.constructors:
            return Meaning("constructor", name)
        if name in module.types:
            return Meaning("type", name)
        return self.meaning_at(*module.brought[name]) if name in module.brought else None

    def meaning_at(self, path, name):
        """What a name of the module of this path stands for."""
        parts = path.split(".")
        if (path, name) in self.given:
            return Meaning("given", name, (path, name))
        if "declared" in parts:
            return Meaning("constructor" if parts[-1] == "TheVariants" else "type", name)
        module = self.module(path)
        if module is None and path.count(".") > 1:
            # (the constructors of a type are in a module of its name)
            outer = self.module(path.rpartition(".")[0])
            return Meaning("constructor", name) if outer and name in outer.constructors else None
        return self.meaning(module, name) if module else None

    def fixity(self, module, name):
        """How tightly an operator binds, and to which side: by a line of the module that declares it."""
        if name in module.fixities:
            return module.fixities[name]
        path, original = module.brought.get(name, (LOGIC, name))
        if (path, original) in self.given and self.given[path, original].fixity:
            return self.given[path, original].fixity
        outer = self.module(path) if path != LOGIC else None
        if outer is None:
            raise Unreadable(f"{module.name}: how tightly {name} binds is not known")
        return self.fixity(outer, original)
