"""Lines and the events that a set of macros makes of them (`==== sets` in page_scopes_cases)."""
from . import values
from .asking import NONE, Costly, listed, number, one, option, record, repeated, some, text_of

JOINS = {"Apart": "", "Glued": "+", "Parted": "_"}
ROLES = {"Line": "line", "Argument": "word", "Delimiter": "delimiter", "Name": "name"}
STEPS = {"NextColumn": "column", "Glue": "glue", "ManualName": "manual", "NextField": "field", "NextArgument": "argument", "FunctionEnd": "ends"}
SYNOPSIS = {"Break": "row", "Include": "include", "NameBegins": "hang", "NameEnds": "hung"}
NOTES = {"EmptyMacro": "empty", "UnknownMacro": "unknown", "Unterminated": "quote", "NoListType": "type", "MissingWidth": "width", "UnknownFont": "font"}
QUOTES = {"Bare": ("", ""), "Closed": ('"', '"'), "Unclosed": ('"', "")}
SETS, LINES, NAMES, MDOC = "page_sets", "page_sets_lines", "page_sets_names", "page_sets_mdoc_lines"
NUMBER = 7
# the most bytes of a line that is asked
MOST = 20_000


def taken(asked, text, line=NUMBER):
    """A line whose raw text is its finished text, as roff hands it to a set of macros."""
    form = asked.call("page_roff_syntax.LineForms.form_of", listed(text))
    if form.name == "Control":
        return of_form("Control", text, line, form.arguments[3] - 1)
    return of_form("Text" if form.name == "Text" else "Blank", text, line)


def of_form(form, text, line=NUMBER, name_end=0):
    return record(form=one(form), text=listed(text), number=line, name_end=name_end)


def bare(text):
    return record(text=text, column=1, quoting=one("Bare"))


def given(text):
    """A text that may be missing, as an argument."""
    return [bare(it) for it in text.arguments]


class Shown:
    """Events as short texts, as `events.rt` shows them: what an event is, its name, its texts, and how it is beside others."""

    def __init__(self, asked):
        self.asked = asked

    def name(self, what, value):
        return text_of(self.asked.call(what, value))

    def event(self, event):
        kind = event.of_kind
        before, word, after, name, texts = self.kind(kind.name, kind.arguments)
        shown = "".join(f" {QUOTES[it.of_quoting.name][0]}{text_of(it.of_text)}{QUOTES[it.of_quoting.name][1]}" for it in texts)
        return f"{event.of_place.of_column} {JOINS[before]}{word}{JOINS[after]}{f' {name}' if name else ''}{shown}"

    def kind(self, name, own):
        if name == "Word":
            word = own[0]
            font = word.of_font.arguments[0].name if word.of_font.arguments else ""
            return word.of_before.name, ROLES[word.of_role.name], word.of_after.name, font, [word.of_arg]
        if name == "Leaf" and own[0].name == "Generated":
            return self.generated(own[0].arguments[0])
        return self.alone(*self.apart(name, own))

    def alone(self, word, name="", texts=()):
        return "Apart", word, "Apart", name, texts

    def generated(self, word):
        joins = self.asked.call(f"{NAMES}.Names.generated_joins_next", word.of_text)
        text = self.asked.call(f"{NAMES}.Names.generated_text", word.of_text)
        font = word.of_font.arguments[0].name if word.of_font.arguments else ""
        return word.of_before.name, "mark", "Glued" if joins else word.of_after.name, font, [bare(text)]

    def apart(self, name, own):
        if name == "Open":
            return self.opener(own[0].name, own[0].arguments)
        if name == "Close":
            return self.closer(own[0].name, own[0].arguments)
        if name == "LineScope":
            return "scope", self.line_opener(own[0])
        if name == "Leaf":
            return self.leaf(own[0].name, own[0].arguments)
        if name == "Raw":
            return "raw", "", [bare(own[0])]
        if name == "End":
            return ("filled",) if own[0] else ("end",)
        kind, detail, _, begins = own
        return "note!" if begins else "note", NOTES.get(kind.name, "other"), [bare(detail)] if detail else []

    def line_opener(self, opener):
        if opener.name == "Enclosure":
            return text_of(self.asked.call(f"{NAMES}.Marks.row_of_marks", opener.arguments[0]).of_name)
        return {"Head": "It", "Description": "Nd"}.get(opener.name) or opener.arguments[0].name

    def opener(self, name, own):
        simple = {"Item": "It", "Section": "SH", "Subsection": "SS"}
        if name in simple:
            return "open", simple[name]
        if name == "Paragraph":
            return "open", own[0].name
        if name in ("Tagged", "Hanging", "RelativeMargin"):
            return "open", {"Tagged": "TP", "Hanging": "HP", "RelativeMargin": "RS"}[name], given(own[0])
        if name == "Indented":
            return "open", "IP", [*own[0].arguments, *given(own[1])]
        if name == "Target":
            return "open", own[0].name, [own[1]]
        return ("open", "SY", [own[0]]) if name == "Syntax" else self.block_opener(own[0], own[0].name, own[0].arguments)

    def block_opener(self, opener, name, own):
        block = self.name(f"{LINES}.Blocks.block_name", self.asked.call(f"{LINES}.Blocks.opened_block", opener))
        if name == "List":
            return f"open{' compact' if own[1] else ''}", block, [bare(own[2])]
        if name == "Display":
            return f"open{' literal' if own[0] else ''}{' compact' if own[1] else ''}", block, own[2].arguments
        if name == "Fonts" and own[0].arguments:
            return "open", block, [bare(listed(own[0].arguments[0].name))]
        return "open", block, own[0].arguments if name == "Custom" else [own[0]] if name == "Function" else ()

    def closer(self, name, own):
        if name in ("Line", "Syntax", "Enclosures"):
            return "close", {"Line": "lines", "Syntax": "YS", "Enclosures": "enclosures"}[name]
        if name == "RelativeMargin":
            return "close", "RE", given(own[0])
        if name == "Target":
            return "close", self.name(f"{NAMES}.Names.link_closer_name", own[0]), own[1].arguments
        block = self.name(f"{LINES}.Blocks.block_closer_name", self.asked.call(f"{LINES}.Blocks.closed_block", own[0]))
        return "close", block, own[0].arguments[0].arguments if own[0].name == "Custom" else ()

    def leaf(self, name, own):
        if name == "Request":
            return self.request(own[0].name, own[0].arguments)
        if name == "Step":
            return self.step(own[0].name, own[0].arguments)
        return {
            "BlankLine": lambda: ("blank",), "Wordless": lambda: ("wordless", "", [bare(own[0])]), "Prologue": lambda: ("title", own[0].name, [bare(own[1])]),
            "Example": lambda: ("example", "EX" if own[0] else "EE"), "Distance": lambda: ("distance", "PD", given(own[0])),
            "Fonts": lambda: ("fonts", own[0].arguments[0].name if own[0].arguments else ""), "FurtherTag": lambda: ("tag", "TQ"),
        }[name]()

    def request(self, name, own):
        if name == "Literal":
            return "request", "nf" if own[0] else "fi"
        word = {"Break": "br", "Space": "sp", "Font": "ft", "Shift": "in"}[name]
        return "request", word, () if name == "Break" else own[0].arguments if name == "Font" else given(own[0])

    def step(self, name, own):
        if name == "BodyParagraph":
            return "paragraph", own[0].name
        if name == "Uri":
            return "uri", "", [own[0]]
        if name == "Spacing":
            return "spacing", ("on" if own[0].arguments[0] else "off") if own[0].arguments else ""
        return (SYNOPSIS[own[0].name],) if name == "Synopsis" else (STEPS[name],)


class Sets:
    def __init__(self, asked):
        self.asked, self.shown = asked, Shown(asked)

    def answer(self, line, wanted):
        call, _, text = line.partition(" ")
        own = getattr(self, f"show_{call}", None)
        return own(text) if own else ""

    def events(self, events):
        shown = "; ".join(self.shown.event(it) for it in values.items(events))
        return f" -> {shown}" if events else ""

    def man(self, line):
        return self.events(self.asked.call(f"{SETS}.Man.man_events", line))

    def show_man(self, text):
        return self.man(taken(self.asked, text))

    def show_mdoc(self, text):
        return self.events(self.asked.call(f"{SETS}.Mdoc.mdoc_events", taken(self.asked, text)))

    def show_named(self, text):
        end, _, text = text.partition(" ")
        return self.man(of_form("Control", text, NUMBER, number(end)))

    def show_text(self, text):
        return self.man(of_form("Text", text))

    def show_blank(self, text):
        return self.man(of_form("Blank", text))

    def show_raw(self, text):
        return self.man(of_form("Raw", text))

    def show_other(self, text):
        return self.events(self.asked.call("page_scopes_cases.Verbatim.verbatim_events", of_form("Text", text)))

    def show_count(self, text):
        text = repeated(text)
        if len(text) > MOST:
            raise Costly
        return f" -> {values.length(self.asked.call(f'{SETS}.Mdoc.mdoc_events', taken(self.asked, text)))}"

    def show_indents(self, text):
        man, mdoc = (self.asked.call(f"{SETS}.Mdoc.either_indent", one(name)) for name in ("Man", "Mdoc"))
        return f" -> {man} {mdoc} 3"

    def show_words(self, text, is_first=False):
        line = taken(self.asked, text)
        name = self.asked.call(f"{LINES}.Lines.name_of", line)
        row = self.asked.call(f"{MDOC}.Rows.row_of", name).arguments
        if not row or row[0].of_begins.name != "Inline":
            return ""
        inline, place = row[0].of_begins.arguments[0], self.asked.call(f"{LINES}.Lines.name_place", line)
        parts = self.asked.call(f"{SETS}.Mdoc.line_parts", some(inline), line)
        follows = bool(parts.of_calls or parts.of_tail)
        return self.events(self.asked.call("page_sets_mdoc_words.Sentences.placed_events", is_first, place, name, inline, parts.of_taken, parts.of_words, follows))

    def show_first(self, text):
        return self.show_words(text, True)

    def show_row(self, text):
        row = option(self.asked.call(f"{MDOC}.Rows.row_of", listed(text)))
        is_called = self.asked.call(f"{MDOC}.Rows.called", listed(text)) is not NONE
        words = [*(["callable"] if is_called else []), *(["parsed"] if row and row.of_is_parsed else [])]
        return f" -> {', '.join(words) or ('neither callable nor parsed' if row else 'no macro')}"

    def show_delimiter(self, text):
        found = option(self.asked.call(f"{MDOC}.Parts.delimiter_of", listed(text)))
        return f" -> {found.name.lower() if found else 'none'}"
