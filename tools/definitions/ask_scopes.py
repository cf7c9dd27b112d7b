"""Lines of pages, and the pieces and messages that their block tree gives (`==== scopes` in page_scopes_cases), from edge to edge, line by line."""
from . import values
from .ask_sets import of_form, taken
from .asking import NONE, listed, number, one, option, place, record, some, text_of, values_of
from .values import NO, YES

LINES, TREES = "page_engine_lines", "page_engine_lines.Trees"
MARKS = {"Aq": "Angle", "Bq": "Square", "Op": "Square", "Brq": "Curly", "Pq": "Round", "Dq": "Double", "Sq": "Single", "Ql": "Single", "Qq": "Straight"}
OPENED = ["Ao", "Bo", "Bro", "Do", "Oo", "Po", "Qo", "So"]
CLOSED = {f"{name[:-1]}c": name for name in OPENED}
FACES = {"R": "", "I": "/I", "B": "/B", "BI": "/BI"}
PIECES = {"Para": " Para ", "Space": " Space ", "Tag": " Tag ", "Column": " Column ", "Blank": " _"}


def made(*names):
    """Constructors one inside another; the last is a constructor, or an argument of it."""
    found = one(names[-1]) if isinstance(names[-1], str) else names[-1]
    for name in reversed(names[:-1]):
        found = values.constructed(name, found)
    return found


def block(opener, name, *arguments):
    return made("Open" if opener else "Close", "Block", values.constructed(name, *arguments))


def step(name, *arguments):
    return made("Leaf", "Step", values.constructed(name, *arguments))


def generated(text, face, after):
    return made("Leaf", "Generated", record(text=one(text), font=some(one(face)), before=one("Apart"), after=one(after)))


# an event of mdoc(7) by the name under which it is spelled (crates/page_scopes_cases/src/scopes_calls/spelled.rt)
SPELLED = {
    "Sh": made("Open", "Section"), "Ss": made("Open", "Subsection"), "head": made("LineScope", "Heading", "Sh"),
    "subhead": made("LineScope", "Heading", "Ss"), "Nd": made("LineScope", "Description"), "D1": made("LineScope", "OneLine", "D1"),
    "Pp": step("BodyParagraph", one("Pp")), "It": made("Open", "Item"), "label": made("LineScope", "Head"), "tail": made("Close", "Enclosures"),
    "field": step("NextField"), "Bf": block(True, "Fonts", NONE), "Bf-italic": block(True, "Fonts", some(one("I"))), "Bk": block(True, "Keep"),
    "Rs": block(True, "Reference"), "Ed": block(False, "Display"), "Ef": block(False, "Fonts"), "Ek": block(False, "Keep"),
    "Re": block(False, "Reference"), "Fc": block(False, "Function"), "El": block(False, "List"), "argument": step("NextArgument"),
    "Ta": step("NextColumn"), "ends": step("FunctionEnd"), "Sm": step("Spacing", NONE), "Sm-on": step("Spacing", some(YES)),
    "Sm-off": step("Spacing", some(NO)), "row": step("Synopsis", one("Break")), "include": step("Synopsis", one("Include")),
    "hang": step("Synopsis", one("NameBegins")), "hung": step("Synopsis", one("NameEnds")), "Xo": block(True, "Extension"), "Xc": block(False, "Extension"),
    **{name: made("LineScope", "Enclosure", marks) for name, marks in MARKS.items()},
    **{name: block(True, "Quotation", one(name)) for name in OPENED}, **{name: block(False, "Quotation", one(of)) for name, of in CLOSED.items()},
}
UNWORDED = {
    "Nm": step("ManualName"), "Ns": step("Glue"), "Fl": generated("Dash", "B", "Glued"), "Ar": generated("Files", "I", "Apart"),
    "Ex": generated("UtilityExits", "R", "Apart"),
}
DISPLAYS = {"Bd": (NO, NO), "Bd-compact": (NO, YES), "Bd-literal": (YES, NO)}
WORDS = {"b": "B", "i": "I", "in": "R", "out": "R", "Nm": "B"}


def word(name, column, argument):
    role = values.constructed("Name", column) if name == "Nm" else one("Delimiter" if name in ("in", "out") else "Argument")
    before, after = {"in": ("Apart", "Glued"), "out": ("Glued", "Apart")}.get(name, ("Apart", "Apart"))
    font = some(one(WORDS[name])) if name in WORDS else NONE
    return made("Word", record(arg=argument, role=role, font=font, before=one(before), after=one(after)))


def spelled(part, column):
    """The kind of an event that is spelled in a column: its name, and a text after `=`."""
    name, equals, text = part.partition("=")
    argument = record(text=listed(text), column=column + len(name.encode()) + 1, quoting=one("Bare"))
    given = some(argument) if equals else NONE
    if name in SPELLED:
        return SPELLED[name]
    if name in ("Eo", "Ec"):
        return block(name == "Eo", "Custom", given)
    if name in DISPLAYS:
        return block(True, "Display", *DISPLAYS[name], given)
    if not equals:
        return UNWORDED.get(name, made("End", YES))
    own = {"Lk": lambda: step("Uri", argument), "Fo": lambda: block(True, "Function", argument)}
    return own.get(name, lambda: word(name, column, argument))()


class Scopes:
    def __init__(self, asked, has_begun=False):
        self.asked, self.line = asked, 1
        self.body = asked.call(f"{LINES}.Bodies.start_of", record(
            output=one("Ascii"), width=78, indent=NONE, language=one("Man"), encoding=one("Auto"), least=NONE, os=record(bytes=None, spare=None)))
        if has_begun:
            self.take(".SH A")
            self.take("x")

    def answer(self, line, wanted):
        call, _, text = line.partition(" ")
        if call == "times":
            count, _, line = text.partition(" ")
            for _ in range(number(count) - 1):
                self.take(line)
        return f"\n   {self.take(line)}"

    def steps(self, text):
        if text == "end":
            return values.onto([values.constructed("does", values.constructed("PageEnd", self.line))], None)
        steps = values_of(self.asked.call(f"{TREES}.events_steps", self.events(text)))
        # (a macro of the prologue sets the header, which is of no scope)
        return values.onto([it for it in steps if it.name != "titles"], None)

    def take(self, text):
        """What a line gives."""
        steps, had_begun = self.steps(text), self.body.of_scopes.of_state.of_has_begun
        found = values_of(self.asked.call(f"{TREES}.tree_items", self.body, steps))
        if not had_begun and text != "end":
            found = self.without_header(found)
        self.body = self.asked.call(f"{TREES}.tree_after", self.body, steps)
        self.line += 1
        return "".join(map(self.item, found))

    def without_header(self, found):
        """The header, which the body begins after, is of no scope."""
        header = values_of(self.asked.call(f"{TREES}.header_at", self.line, self.body.of_header))
        at = next((at for at in range(len(found)) if found[at:at + len(header)] == header), None)
        return found if at is None else found[:at] + found[at + len(header):]

    def events(self, text):
        if text[:1] == "^":
            return self.asked.call("page_scopes_cases.Verbatim.verbatim_events", of_form("Raw", text[1:], self.line))
        if text[:1] == "&":
            return values.onto(self.mdoc(text[1:]), None)
        forms = {"|": "Raw", "~": "Text"}
        line = of_form(forms[text[0]], text[1:], self.line) if text[:1] in forms and text else taken(self.asked, text, self.line)
        return self.asked.call("page_sets.Man.man_events", line)

    def mdoc(self, text):
        found, column = [], 2
        if text.startswith("Bl "):
            found.append((2, self.list(text[3:])))
        else:
            for part in text.split(" "):
                found.append((column, spelled(part, column)))
                column += 1 + len(part.encode())
        return [record(place=place(self.line, at), kind=kind) for at, kind in [*found, (1, made("End", YES))]]

    def list(self, options):
        said = self.asked.call("page_sets_lines.Blocks.list_options", self.asked.call("page_roff_syntax.Arguments.arguments", 1, listed(options)))
        return block(True, "List", option(said.of_kind) or one("Item"), said.of_is_compact, listed(options))

    # ---- what is shown

    def item(self, item):
        own = item.arguments[0]
        if item.name == "noted":
            detail = text_of(own.of_detail)
            return f" !{text_of(self.asked.call('page_core_base.Messages.text_of', own.of_kind))} at {own.of_column}{f': {detail}' if detail else ''}"
        return self.piece(own.name, own.arguments)

    def piece(self, name, own):
        if name in ("Text", "Glyph", "Char", "Tab"):
            text = "tab" if name == "Tab" else chr(own[0]) if name == "Char" else text_of(own[0])
            return f"{' glyph' if name == 'Glyph' else ''} <{text}{FACES[own[0 if name == 'Tab' else 1].name]}"
        if name in PIECES:
            return f"{PIECES[name]}{own[0]}"
        if name == "Indent":
            return f" Indent {own[0]},{own[1]}"
        return " Literal" if name == "Literal" and own[0] else " Filled" if name == "Literal" else f" {name}"
