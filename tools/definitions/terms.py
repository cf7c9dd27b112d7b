"""Terms and patterns of definitions, read from their text. Types of names, levels and implicit arguments are passed over.

A term is a tuple that begins with its kind: `local` NAME, `meaning` MEANING, `number` N, `text` TEXT, `apply` TERM TERMS, `if` TERM TERM TERM,
`let` NAME TERM TERM, `function` NAMES TERM, `record` TERM FIELDS (of a base, or of none), `field` TERM LABEL, `tuple` TERMS. A pattern is `any`,
`local` NAME, `tuple` PATTERNS or `constructor` MEANING PATTERNS. Each binder has a name of its own, so that a term can be moved. There are no `elim`,
`where` and `do`: no definition of a page has them, and one that has is refused.
"""
import re

from .files import LOGIC, Meaning, TOKEN, Unreadable

NUMBER = re.compile(r"0x[0-9a-fA-F_]+|\d[\d_]*")
ESCAPE = re.compile(r"\\(?:u\{([0-9a-fA-F]+)\}|(.))")
LETTERS = {"n": "\n", "t": "\t", "r": "\r", "0": "\0"}
ENDS = {")", ",", ";", "}", "then", "else", "in", "="}
# the built-in proof of what always holds, the tactic that finds the proof of a bound by facts of numbers, and what statements are made of
BUILT_IN = {name: Meaning("proof", name) for name in ("tt", "omega", "arith")}
BUILT_IN |= {name: Meaning("given", name, (LOGIC, name)) for name in ("Unit", "⊥", "◌×◌", "◌→◌")}


class Dot(str):
    """A dot between a term and a label; that after the binders of a function has a blank behind it."""


def tokens(text):
    """The words of a text."""
    found = []
    for match in TOKEN.finditer(text):
        word, end = match[0], match.end()
        if word == "." and end < len(text) and not text[end].isspace() and not text[match.start() - 1].isspace():
            word = Dot(".")
        found.append(word)
    return found


def quoted(word):
    """The text that a quoted word stands for."""
    return ESCAPE.sub(lambda found: chr(int(found[1], 16)) if found[1] else LETTERS.get(found[2], found[2]), word[1:-1])


def applied(head, arguments):
    """A term applied to more."""
    if not arguments:
        return head
    if head[0] == "apply":
        return ("apply", head[1], [*head[2], *arguments])
    return ("apply", head, arguments)


class Reader:
    """Reads the words of a clause in its module. `locals` has the names that are bound, each with the name that it has in terms."""

    def __init__(self, files, declaration, text):
        self.files, self.module, self.words, self.at = files, declaration.module, [*tokens(text), ""], 0
        self.name, self.parameters, self.locals, self.bound = declaration.name, declaration.parameters, {}, 0
        self.outer = [self.bind(name) for _, name in declaration.parameters]

    def word(self):
        return self.words[self.at]

    def next(self):
        self.at += 1
        return self.words[self.at - 1]

    def take(self, wanted):
        if self.word() != wanted:
            raise Unreadable(f"{self.module.name}.{self.name}: {wanted!r} is missing before {' '.join(self.words[self.at:self.at + 8])!r}")
        self.at += 1

    def skip(self, opening, closing):
        """Passes over what is in brackets."""
        self.take(opening)
        depth = 1
        while depth:
            word = self.next()
            depth += (word == opening) - (word == closing)

    def bind(self, name):
        self.bound += 1
        self.locals[name] = f"v_{re.sub('[^0-9A-Za-z_]', '_', name)}_{self.bound}"
        return self.locals[name]

    def meaning(self, name):
        if name not in self.module.meanings:
            self.module.meanings[name] = self.files.meaning(self.module, name) or BUILT_IN.get(name)
        found = self.module.meanings[name]
        if found is None:
            raise Unreadable(f"{self.module.name}.{self.name}: what is {name!r}?")
        return found

    def named(self):
        """What the next name stands for, with the alias of a module before it or without."""
        name = self.next()
        if isinstance(self.word(), Dot) and name in self.module.aliases and name not in self.locals:
            self.next()
            last = self.next()
            found = self.files.meaning_at(self.module.aliases[name], last)
            if found is None:
                raise Unreadable(f"{self.module.name}.{self.name}: what is {name}.{last}?")
            return found
        return self.meaning(name)

    def infix(self):
        """The name of the operator that the next word is, if it is one."""
        word = self.words[self.at]
        if word not in self.module.operators:
            name = f"◌{word}◌"
            is_known = any(name in names for names in (self.module.brought, self.module.own, self.module.constructors, BUILT_IN))
            self.module.operators[word] = name if is_known else None
        return self.module.operators[word]

    # ---- clauses

    def clause(self):
        """The patterns and the term of a clause, whose head is the definition's name before its arguments, or between two."""
        patterns = []
        if self.word() == self.name:
            self.next()
            self.patterns_to("=", patterns)
        else:
            patterns = [self.pattern()]
            self.take(self.name.strip("◌"))
            patterns.append(self.pattern())
        self.take("=")
        term = self.term(0)
        if self.word():
            raise Unreadable(f"{self.module.name}.{self.name}: what is {' '.join(self.words[self.at:self.at + 8])!r}?")
        return patterns, term

    def patterns_to(self, end, found):
        while self.word() != end:
            if self.word() == "{":
                self.skip("{", "}")
            else:
                found.append(self.pattern_alone())

    def pattern(self):
        """A pattern, which may be a constructor with patterns after it, or have operators."""
        first = self.pattern_alone()
        if first[0] == "constructor":
            while self.word() not in (")", ",", "=") and not self.infix():
                if self.word() == "{":
                    self.skip("{", "}")
                else:
                    first[2].append(self.pattern_alone())
        operator = self.infix()
        if operator and self.meaning(operator).kind == "constructor" or operator == "◌∷◌":
            self.next()
            return ("constructor", self.meaning(operator), [first, self.pattern()])
        return first

    def pattern_alone(self):
        if self.word() == "(":
            self.next()
            found = [self.pattern()]
            while self.word() == ",":
                self.next()
                found.append(self.pattern())
            self.take(")")
            return found[0] if len(found) == 1 else ("tuple", found)
        if self.word() == "_":
            self.next()
            return ("any",)
        if self.is_constructor():
            return ("constructor", self.named(), [])
        return ("local", self.bind(self.next()))

    def is_constructor(self):
        """Whether the next name of a pattern is a constructor; any other name is bound."""
        start, bound = self.at, self.locals
        self.locals = {}
        try:
            found = self.named()
        except Unreadable:
            return False
        finally:
            self.at, self.locals = start, bound
        return found.kind == "constructor" or found.kind == "given" and found.name in ("zero", "suc", "true", "false", "[]")

    # ---- terms

    def term(self, least):
        """A term whose operators bind at least so tightly."""
        left = self.application()
        operator = self.infix()
        while operator:
            level, side = self.files.fixity(self.module, operator)
            if level < least:
                break
            self.next()
            right = self.term(level + (side != "r"))
            left = applied(self.cited(self.meaning(operator)), [left, right])
            operator = self.infix()
        return left

    def application(self):
        if self.word() in ("λ", "let", "if"):
            return self.open_term()
        head, arguments = self.alone(), []
        while self.word() and self.word() not in ENDS and not self.infix():
            if self.word() == "{":
                self.skip("{", "}")
            elif self.word() in ("λ", "let", "if"):
                arguments.append(self.open_term())
            else:
                arguments.append(self.alone())
        return applied(head, arguments)

    def cited(self, meaning):
        """What a name stands for, as a term: with the parameters of the modules without a name that are around both."""
        found = ("meaning", meaning)
        if meaning.kind != "definition" or meaning.what.module is not self.module:
            return found
        same = zip(meaning.what.parameters, self.parameters, self.outer)
        return applied(found, [("local", name) for one, other, name in same if one == other])

    def open_term(self):
        """A term that reaches as far as it can."""
        word, outer = self.next(), dict(self.locals)
        found = {"λ": self.function, "let": self.let, "if": self.branches}[word]()
        self.locals = outer
        return found

    def function(self):
        names = []
        while self.word() != ".":
            if self.word() == "(":
                start = self.at + 1
                self.skip("(", ")")
                names += [self.bind(name) for name in self.words[start:self.words.index(":", start)]]
            else:
                names.append(self.bind(self.next()))
        self.next()
        return ("function", names, self.term(0))

    def let(self):
        name = self.next()
        while self.word() != "=":
            self.next()
        self.next()
        value = self.term(0)
        self.take("in")
        here = self.bind(name)
        return ("let", here, value, self.term(0))

    def branches(self):
        test = self.term(0)
        self.take("then")
        yes = self.term(0)
        self.take("else")
        return ("if", test, yes, self.term(0))

    def alone(self):
        """A term that needs no brackets, with the labels after it."""
        found = self.bare()
        while isinstance(self.word(), Dot):
            self.next()
            found = ("field", found, self.next())
        return found

    def bare(self):
        word = self.word()
        if word == "(":
            return self.bracketed()
        if word == "record":
            return self.record()
        if word[:1] == '"':
            return ("text", quoted(self.next()))
        if NUMBER.fullmatch(word):
            return ("number", int(self.next().replace("_", ""), 0))
        if word == "∣":
            # (a witness of what a ghost field says is a proof)
            self.skip("∣", "∣₁")
            return ("meaning", BUILT_IN["tt"])
        if word == "_":
            self.next()
            return ("tuple", [])
        if word in self.locals:
            return ("local", self.locals[self.next()])
        return self.cited(self.named())

    def bracketed(self):
        self.take("(")
        found = [self.term(0)]
        while self.word() == ",":
            self.next()
            found.append(self.term(0))
        self.take(")")
        return found[0] if len(found) == 1 else ("tuple", found)

    def record(self):
        self.take("record")
        base = None if self.word() == "{" else self.alone()
        self.take("{")
        fields = []
        while self.word() != "}":
            label = self.next()
            self.take("=")
            fields.append((label, self.term(0)))
            if self.word() == ";":
                self.next()
        self.take("}")
        return ("record", base, fields)


# ---- what is asked of terms


def parts(term):
    """The terms within a term."""
    kind = term[0]
    if kind in ("apply", "tuple"):
        return [*term[1:-1], *term[-1]]
    if kind in ("if", "let", "function", "field"):
        return [part for part in term[1:] if isinstance(part, tuple)]
    if kind == "record":
        return [*([term[1]] if term[1] else []), *(value for _, value in term[2])]
    return []


def uses(term):
    """The names that a term uses, of those that are bound around it or within it."""
    if term[0] == "local":
        return {term[1]}
    return set().union(*map(uses, parts(term)))


def cites(term):
    """Whether a term calls a definition, or a function that it is given."""
    if term[0] == "meaning":
        return term[1].kind == "definition"
    return term[0] == "apply" and term[1][0] == "local" or any(map(cites, parts(term)))


def sunk(name, value, body):
    """A `let`, in those branches alone that use it."""
    if name not in uses(body):
        return body
    if body[0] == "if" and name not in uses(body[1]):
        return ("if", body[1], sunk(name, value, body[2]), sunk(name, value, body[3]))
    return ("let", name, value, body)


def bound(term):
    """The names that are bound within a term."""
    own = {"let": term[1:2], "function": term[1]}.get(term[0], ())
    return set(own).union(*map(bound, parts(term)))


def listed(term):
    """The items of a list that are written one by one, and the rest of it."""
    items = []
    while term[0] == "apply" and term[1][0] == "meaning" and term[1][1].name == "◌∷◌" and len(term[2]) == 2:
        items.append(term[2][0])
        term = term[2][1]
    return items, term
