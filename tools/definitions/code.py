"""Definitions as functions of Python: each is compiled where it is first called, and computes what its clauses say.

Arguments are computed before a call; a `let` where its branch needs it; of two branches, and of `&&` and `||`, what decides. A definition that
cites another one is computed once for the same arguments, and what it gave is kept until `forget`. So one that names its recursive call twice
(`kept_len` in page_roff_syntax), or makes two continuations of which one is used (`parts` in page_sets_mdoc_lines), takes as many steps as it has
different arguments, where by its text alone it would take twice as many for each byte or word; since all definitions are total and nothing in them
changes, that is what they mean. A function within a term becomes one of its own, with the names of the term that it uses before its arguments, and
is kept in the same way. No limit is set to how deep calls go: `deeply` runs with room for them.
"""
import gc
import re
import sys
import threading

from . import values
from .files import Files, Unreadable
from .terms import Reader, bound, cites, listed, sunk, uses

ROOM = 1 << 29
CALLS = 10 ** 7


def python_name(name):
    return re.sub(r"[^0-9A-Za-z]", lambda found: f"_{ord(found[0]):x}_" if found[0] != "_" else "_", name)


def label_name(label):
    return f"of_{python_name(label)}"


class Program:
    """The functions that were compiled, in a room of global names."""

    def __init__(self, crates, kit, given=None):
        self.files = Files(crates, kit, given or values.given())
        self.room = {**vars(values), "keeping": keeping, "Unreadable": Unreadable}
        self.names, self.counts, self.compiled, self.kept, self.writer = {}, {}, set(), [], Writer

    def function(self, path, name):
        """The function of a definition, by its module and its name."""
        module = self.files.module(path)
        if module is None or name not in module.own:
            raise Unreadable(f"there is no definition {path}.{name}")
        return self.room[self.named(module.own[name])]

    def forget(self):
        """Keeps no result any longer, where many are kept."""
        for kept in self.kept:
            kept.clear()
        values.forget()

    def forget_many(self, most):
        if sum(map(len, self.kept)) + values.kept_count() > most:
            self.forget()

    def named(self, declaration):
        """The name of a definition's function. Until the first call it stands for one that compiles it."""
        if declaration not in self.names:
            if not declaration.clauses:
                raise Unreadable(f"{declaration.module.name}.{declaration.name} has no clause")
            name = f"{python_name(declaration.module.name.replace('.specs.', '.'))}__{python_name(declaration.name)}"
            self.names[declaration] = name
            self.counts[name] = len(declaration.parameters) + argument_count(self.files, declaration)

            def first_call(*arguments):
                self.compile(declaration, name)
                return self.room[name](*arguments)

            self.room[name] = first_call
        return self.names[declaration]

    def compile(self, declaration, name):
        if name not in self.compiled:
            self.compiled.add(name)
            readers = [Reader(self.files, declaration, text) for text in declaration.clauses]
            lines = self.writer(self, name).lines(self.counts[name], [(reader, *reader.clause()) for reader in readers])
            self.run("\n".join(lines), name)

    def compile_all(self):
        """Compiles all that is reached, also what no page has asked for, and answers how many definitions these are."""
        while len(self.compiled) < len(self.names):
            for declaration, name in list(self.names.items()):
                self.compile(declaration, name)
        return len(self.compiled)

    def run(self, source, name):
        exec(compile(source, name, "exec"), self.room)

    def by_one(self, name, count):
        """The name of a function that takes the arguments of another one by one, and gives the same function for the same arguments."""
        own = f"by_one_{name}" if count > 1 else name
        if own not in self.room:
            firsts = "".join(f"keeping(lambda a{at}: " for at in range(count - 1))
            given = ", ".join(f"a{at}" for at in range(count))
            self.room[own] = eval(f"{firsts}lambda a{count - 1}: {name}({given}){')' * (count - 1)}", self.room)
            self.kept.append(self.room[own].kept)
        return own


def keeping(make):
    """A function of one argument that keeps what it gave."""
    kept = {}

    def take(argument):
        if argument not in kept:
            kept[argument] = make(argument)
        return kept[argument]

    take.kept = kept
    return take


def argument_count(files, declaration):
    """How many arguments the clauses of a definition take, by the first one's head."""
    head = re.split(r"\s=(?:\s|$)", re.sub(r"\{[^{}]*\}", "", declaration.clauses[0]), maxsplit=1)[0]
    reader, found = Reader(files, declaration, f"{head} ="), []
    if reader.word() != declaration.name:
        return 2
    reader.next()
    reader.patterns_to("=", found)
    return len(found)


class Writer:
    """Writes the function of a definition, and those of the functions within its terms. `mark` gives a call that notes that a clause is computed, or a branch
    of an `if` in it: there is none but in coverage.py."""

    def __init__(self, program, name):
        self.program, self.name, self.inner, self.clause = program, name, 0, None

    def mark(self, _test=None, _branch=None):
        return ""

    def lines(self, count, clauses):
        """A function of so many arguments: the first clause that the arguments fit, computed once if it cites a definition."""
        given = [f"a{at}" for at in range(count)]
        lines = [f"def {self.name}({', '.join(given)}):"]
        is_kept = count == 0 or any(cites(term) for _, _, term in clauses)
        if is_kept:
            lines += self.lookup(self.name, given)
        for at, (reader, patterns, term) in enumerate(clauses):
            self.clause = reader, at
            if len(reader.outer) + len(patterns) != count:
                raise Unreadable(f"{reader.module.name}.{reader.name}: its clauses are not of the same length")
            tests, sets = [], dict(zip(reader.outer, given))
            for pattern, place in zip(patterns, given[len(reader.outer):]):
                fit(pattern, place, tests, sets)
            used = uses(term)
            lines += [f"    if {' and '.join(tests) or 'True'}:", f"        {self.mark() or 'pass'}"]
            lines += [f"        {name} = {place}" for name, place in sets.items() if name in used]
            self.body(term, "        ", is_kept, lines)
        return [*lines, f"    raise Unreadable('no clause of {self.name} fits')"]

    def lookup(self, name, given):
        kept = f"kept_{name}"
        self.program.room[kept] = {}
        if given:
            self.program.kept.append(self.program.room[kept])
        return [f"    key = ({''.join(f'{it}, ' for it in given)})", f"    if key in {kept}:", f"        return {kept}[key]", f"    kept = {kept}"]

    def body(self, term, margin, is_kept, lines):
        """The statements that give a term."""
        if term[0] == "if":
            lines += [f"{margin}if {self.test(term[1])}:", f"{margin}    {self.mark(term[1], 'then') or 'pass'}"]
            self.body(term[2], margin + "    ", is_kept, lines)
            lines.append(f"{margin}{self.mark(term[1], 'else') or 'pass'}")
            self.body(term[3], margin, is_kept, lines)
        elif term[0] == "let":
            lowered = sunk(*term[1:])
            if lowered[0] == "let":
                lines.append(f"{margin}{term[1]} = {self.term(term[2])}")
                lowered = lowered[3]
            self.body(lowered, margin, is_kept, lines)
        elif is_kept:
            lines += [f"{margin}found = kept[key] = {self.term(term)}", f"{margin}return found"]
        else:
            lines.append(f"{margin}return {self.term(term)}")

    # ---- terms

    def term(self, term):
        """A term as an expression."""
        kind = term[0]
        if kind == "local":
            return term[1]
        if kind in ("number", "text"):
            return repr(term[1])
        if kind == "tuple":
            return f"({''.join(f'{self.term(part)}, ' for part in term[1])})"
        if kind == "if":
            return f"({self.branch(term, 2, 'then')} if {self.test(term[1])} else {self.branch(term, 3, 'else')})"
        if kind == "field":
            label = f"[{term[2]}]" if term[2].isdigit() else f".{label_name(term[2])}"
            return f"{self.term(term[1])}{label}"
        return getattr(self, f"{kind}_term")(*term[1:])

    def branch(self, term, at, word):
        marked = self.mark(term[1], word)
        return f"({marked} or {self.term(term[at])})" if marked else self.term(term[at])

    def test(self, term):
        """A term of a truth value as a condition of Python."""
        head, given = term[1:] if term[0] == "apply" else (term, [])
        what = self.given_test(head, given)
        return what.term.format(*map(self.test if what.of_tests else self.term, given)) if what else self.term(term)

    def given_test(self, head, given):
        """The test of the library that a term is, if it has all its arguments."""
        what = self.program.files.given[head[1].what] if head[0] == "meaning" and head[1].kind == "given" else None
        return what if what and what.is_test and len(given) == what.count else None

    def let_term(self, name, value, body):
        lowered = sunk(name, value, body)
        if lowered[0] != "let":
            return self.term(lowered)
        return f"({name} := {self.term(value)}, {self.term(body)})[1]"

    def record_term(self, base, fields):
        fields = sorted((label_name(label), self.term(value)) for label, value in fields)
        labels = tuple(label for label, _ in fields)
        given = ", ".join(value for _, value in fields)
        if base:
            return f"changed({self.term(base)}, {labels!r}, {given})"
        name = "record_" + "_".join(labels)
        self.program.room[name] = values.maker(labels)
        return f"{name}({given})"

    def function_term(self, names, body):
        """A function of its own, with the names that it uses before its arguments."""
        outer = sorted(uses(body) - bound(body) - set(names))
        self.inner += 1
        name, given = f"{self.name}__{self.inner}", [*outer, *names]
        lines = [f"def {name}({', '.join(given)}):"]
        is_kept = cites(body)
        if is_kept:
            lines += self.lookup(name, given)
        self.body(body, "    ", is_kept, lines)
        self.program.run("\n".join(lines), name)
        return self.program.by_one(name, len(given)) + "".join(f"({it})" for it in outer)

    def meaning_term(self, meaning):
        return self.apply_term(("meaning", meaning), [])

    def apply_term(self, head, arguments):
        if head[0] != "meaning":
            return self.term(head) + "".join(f"({self.term(it)})" for it in arguments)
        meaning = head[1]
        if meaning.kind in ("proof", "type"):
            return "None"
        if listed(("apply", head, arguments))[0]:
            return self.list_term(("apply", head, arguments))
        if self.given_test(head, arguments):
            return f"(YES if {self.test(('apply', head, arguments))} else NO)"
        given = [self.term(it) for it in arguments]
        if meaning.kind == "constructor":
            return self.constructor_term(meaning.name, given)
        if meaning.kind == "given":
            return self.given_term(meaning, given)
        return self.definition_term(meaning.what, given)

    def list_term(self, term):
        heads, tail = listed(term)
        given = ", ".join(map(self.term, heads))
        return f"cons({given}, {self.term(tail)})" if len(heads) == 1 else f"onto(({given}), {self.term(tail)})"

    def constructor_term(self, name, given):
        if given:
            return f"constructed({name!r}, {', '.join(given)})"
        constant = f"alone_{python_name(name)}"
        self.program.room.setdefault(constant, values.constructed(name))
        return constant

    def given_term(self, meaning, given):
        what = self.program.files.given[meaning.what]
        if len(given) >= what.count:
            return what.term.format(*given) + "".join(f"({it})" for it in given[what.count:])
        name = f"given_{python_name(meaning.name)}"
        if name not in self.program.room:
            names = [f"a{at}" for at in range(what.count)]
            term = what.term.format(*names)
            self.program.run(f"def {name}({', '.join(names)}):\n    return {f'(YES if {term} else NO)' if what.is_test else term}", name)
        return self.program.by_one(name, what.count) + "".join(f"({it})" for it in given)

    def definition_term(self, declaration, given):
        name = self.program.named(declaration)
        count = self.program.counts[name]
        if len(given) < count:
            return self.program.by_one(name, count) + "".join(f"({it})" for it in given)
        return f"{name}({', '.join(given[:count])})" + "".join(f"({it})" for it in given[count:])


def fit(pattern, place, tests, sets):
    """The tests that a value at a place fits a pattern, and where what it binds is."""
    kind = pattern[0]
    if kind == "local":
        sets[pattern[1]] = place
    elif kind == "tuple":
        for at, part in enumerate(pattern[1]):
            fit(part, f"{place}[{at}]", tests, sets)
    elif kind == "constructor" and pattern[1].kind == "given":
        test, places = BUILT_IN[pattern[1].name]
        tests.append(test.format(place))
        for part, inner in zip(pattern[2], places):
            fit(part, inner.format(place), tests, sets)
    elif kind == "constructor":
        tests.append(f"{place}.name == {pattern[1].name!r}")
        for at, part in enumerate(pattern[2]):
            fit(part, f"{place}.arguments[{at}]", tests, sets)


# of each constructor that is given: the test for it, and where its arguments are
BUILT_IN = {
    "true": ("{}", []), "false": ("not {}", []), "zero": ("{} == 0", []), "suc": ("{} > 0", ["({} - 1)"]),
    "[]": ("{} is None", []), "◌∷◌": ("{} is not None", ["{}.head", "{}.tail"]),
}


def deeply(function):
    """What a function gives, run with room for deep calls."""
    sys.setrecursionlimit(CALLS)
    threading.stack_size(ROOM)
    # (what is made stays for the whole run of a page, so looking for what can be thrown away is work for nothing)
    gc.disable()
    found, faults = [], []

    def run():
        try:
            found.append(function())
        except BaseException as fault:
            faults.append(fault)

    thread = threading.Thread(target=run)
    thread.start()
    thread.join()
    if faults:
        raise faults[0]
    return found[0]
