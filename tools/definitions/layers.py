"""The cases of layers, in parts that can be asked side by side: each begins anew."""
from .ask_bytes import Core, Lines
from .ask_fill import Filling
from .ask_roff import Roff
from .ask_scopes import Scopes
from .ask_sets import Sets
from .asking import Costly, Definitions, aligned, number
from .pages import TOP

FILES = ["page_roff_cases", "page_scopes_cases", "page_fill_cases"]
HEADINGS = {"==== core": Core, "==== lines": Lines, "==== roff": Roff, "==== sets": Sets, "==== scopes": Scopes, "==== filling": Filling}
# the words after which a layer begins anew, and of a layer whose lines do not depend on one another how many are asked together
STARTS = {Roff: ("new",), Scopes: ("new", "page"), Filling: ("page", "rows")}
TOGETHER = {Core: 60, Lines: 1, Sets: 40}
OUTPUTS = {"utf8": "Utf8", "lint": "Lint"}


class Part:
    """Lines of a layer that are asked one after the other, each with what is wanted of it."""

    def __init__(self, layer, start, settings, title):
        self.title, self.layer, self.start, self.settings, self.lines = title, layer, start, settings, []

    def begun(self, asked):
        if self.layer is Scopes:
            return Scopes(asked, self.start == "page")
        return Filling(asked, self.settings) if self.layer is Filling else self.layer(asked)

    def left_out(self):
        return None

    def cost(self):
        return sum(len(line) + 40 * line.count("~") for line, _ in self.lines)

    def ask(self, pages):
        """How many lines are right, how many are left to the program, and what is wrong: the line, what is given and what is wanted."""
        layer, right, left, wrong = self.begun(Definitions(pages.program)), 0, 0, []
        for at, (line, wanted) in enumerate(self.lines):
            try:
                answer = layer.answer(line, wanted)
            except Costly:
                return right, left + len(self.lines) - at, wrong
            left += answer is None
            right += answer is not None and f"{line}{answer}\n" == wanted
            if answer is not None and f"{line}{answer}\n" != wanted:
                wrong.append((line, f"{line}{answer}\n", wanted))
        return right, left, wrong


def is_call(line):
    return not line.startswith(("# ", "====")) and line != "new"


def parts():
    """The parts of all files. Headings, and lines that begin something anew, are no calls."""
    for name in FILES:
        with open(f"{TOP}/crates/{name}/stdin", encoding="utf-8") as file:
            lines = file.read().split("\n")[:-1]
        with open(f"{TOP}/crates/{name}/stdout", encoding="utf-8") as file:
            wanted = aligned(lines, file.read())
        yield from parts_of(name, lines, wanted)


def parts_of(name, lines, wanted):
    part, settings = None, (78, "Ascii")
    for at, (line, own) in enumerate(zip(lines, wanted), 1):
        word, _, rest = line.partition(" ")
        is_start = part is not None and word in STARTS.get(part.layer, ())
        if is_start and part.layer is Filling and word == "page":
            digits, _, output = rest.partition(" ")
            settings = (number(digits, 78), OUTPUTS.get(output, "Ascii"))
        if is_call(line) and not (is_start and word in ("new", "page")):
            part.lines.append((line, own))
        if line in HEADINGS or is_start or part and len(part.lines) >= TOGETHER.get(part.layer, len(part.lines) + 1):
            if part and part.lines:
                yield part
            part = Part(HEADINGS.get(line) or part.layer, word, settings, f"{name}:{at + 1}")
    if part and part.lines:
        yield part
