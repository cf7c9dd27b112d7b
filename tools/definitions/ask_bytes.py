"""Calls of the layers of bytes (`==== core` and `==== lines` in page_roff_cases): escapes, glyphs, numbers, columns, rows and lines."""
from . import values
from .asking import (NONE, Costly, bytes_of, font, listed, messages_shown, number, one, option, place, record, repeated, rows_of, runs, text_of, integer)
from .values import NO, YES

LINE = 65_536
ESCAPES = "page_core_escapes"
FACES = {"roman": "roman", "italic": "italic", "bold": "bold", "bold_italic": "bold italic", "former": "former"}
UNITS = {"n": "En", "m": "Em", "v": "Vertical", "P": "Pica", "i": "Inch", "p": "Point", "c": "Centimeter"}
OUTPUTS = [one("Ascii"), one("Lint"), one("Utf8")]


def found_escape(meaning, length):
    """The number of an escape's bytes, what it means, and its argument or character."""
    name, own = meaning.name, meaning.arguments
    if name == "face":
        name, own = FACES.get(own[0].name, "font"), own[0].arguments
    argument = "" if not own else chr(own[0]) if isinstance(own[0], int) else text_of(own[0])
    return f" -> {length} {name}" + (f" {argument}" if argument else "")


class Core:
    """Calls below `==== core`; those of texts of more bytes than these are left to the program."""
    MOST = 20_000

    def __init__(self, asked):
        self.asked = asked

    def answer(self, line, wanted):
        call, _, text = line.partition(" ")
        if call == "long":
            call, _, text = repeated(text).partition(" ")
        if len(text.encode()) > self.MOST:
            raise Costly
        own = getattr(self, f"show_{call.replace('-', '_')}", None)
        return own(text) if own else ""

    def show_escape(self, text):
        if not text.startswith("\\") or len(text.encode()) > LINE:
            return ""
        return found_escape(*self.asked.call(f"{ESCAPES}.Meanings.escape_of", NO, listed(text)))

    def show_quoted(self, text):
        token = self.asked.call(f"{ESCAPES}.Tokens.token_at", YES, listed(text))
        return found_escape(token.arguments[1], values.length(token.arguments[0])) if token.name == "escaped" else ""

    def printed(self, printing, is_glyph):
        if printing.of_unknown is NONE:
            return f" [{text_of_characters(printing.of_characters)}]"
        # (of a control character no name is shown)
        name = text_of(printing.of_unknown.arguments[0])
        return f" no {'glyph' if is_glyph or not name else 'spelling of'} {name}"

    def show_glyph(self, name):
        found = option(self.asked.call("page_core_tables.Glyphs.glyph_of", listed(name)))
        shown = " -> none"
        if found:
            spelling = self.asked.call("page_core_tables.Glyphs.spelling_of", found.of_code)
            shown = f" -> {chr(found.of_code)} [{text_of(found.of_spelling)}] [{text_of(spelling)}]"
        every = (self.asked.call("page_core_tables.Glyphs.glyph_printed", output, listed(name)) for output in OUTPUTS)
        return shown + "".join(self.printed(printing, not found) for printing in every)

    def show_character(self, text):
        c = ord(text[0]) if text else 32
        every = (self.asked.call("page_core_tables.Glyphs.char_printed", output, c) for output in OUTPUTS)
        shown = "".join(self.printed(printing, False) for printing in every)
        spelling = text_of(self.asked.call("page_core_tables.Glyphs.spelling_of", c))
        return f" -> [{spelling}]{shown} {self.asked.call('page_core_tables.Glyphs.char_columns', c)}"

    def show_columns(self, text):
        if len(text.encode()) > LINE:
            return ""
        every = (self.asked.call("page_core_numbers.Columns.columns_of", output, listed(text)) for output in OUTPUTS)
        return f" -> {' '.join(f'{it}' for it in every)}"

    def show_number(self, text):
        letter, _, text = text.partition(" ")
        read = self.asked.call("page_core_numbers.Expressions.expression_of", one(UNITS.get(letter, "Basic")), listed(text))
        length = len(text.encode()) - values.length(read.of_rest)
        notes = self.asked.call("page_core_numbers.Expressions.messages_at", 3, 7, read.of_troubles)
        return f" -> {integer(read.of_value)} of {length} bytes{messages_shown(self.asked, 'number', notes)}"

    def cells(self, letters, text):
        return [record(c=ord(c), font=font((letters[at:] or letters[-1:])[:1])) for at, c in enumerate(text)]

    def show_cells(self, text):
        letter, _, text = text.partition(" ")
        every = (text_of(self.asked.call("page_core_streams.Streams.cell_bytes_of", cell)) for cell in self.cells(letter[:1], text))
        return " -> " + "".join(f"{shown}|" for shown in every)

    def row(self, text, is_one_font):
        margin, _, text = text.partition(" ")
        letters, _, text = text.partition(" ")
        cells = values.onto(self.cells(letters[:1] if is_one_font else letters, text), None)
        return rows_of(self.asked, values.onto([record(margin=number(margin), cells=cells)], None))

    def show_row(self, text):
        return self.row(text, True)

    def show_ascii_row(self, text):
        return self.row(text, False) if text.isascii() else ""

    def show_line(self, text):
        text = bytes_of(text)
        is_text = self.asked.program.function("Rattle.std.specs.Str", "is_utf8")(listed(text))
        is_plain = self.asked.call("page_core_base.Texts.has_no_control", 0, listed(text))
        return " -> a line" if is_text and is_plain and len(text) <= self.asked.call("page_core_base.Limits.LINE") else " -> none"

    def show_message(self, text):
        line, _, text = text.partition(" ")
        column, _, detail = text.partition(" ")
        about = place(number(line), number(column))
        note = self.asked.call("page_core_base.Messages.message_about", one("UndefEscape"), about, listed(bytes_of(detail)))
        return messages_shown(self.asked, "a.1", values.onto([note], None))


def text_of_characters(characters):
    return "".join(map(chr, values.items(characters)))


class Lines:
    """Pages that are cut into lines; those of more bytes than these are left to the program."""
    MOST = 70_000

    def __init__(self, asked):
        self.asked = asked

    def answer(self, line, wanted):
        call, _, text = line.partition(" ")
        if call not in ("auto", "ascii", "latin1", "utf8"):
            return ""
        page = bytes_of(text)
        if len(page) > self.MOST:
            raise Costly
        found = self.asked.call("page_roff_lines.Lines.lines", one(call.capitalize()), listed(page))
        return " -> " + runs("".join(self.shown(line) for line in values.items(found)))

    def shown(self, line):
        notes = (f"{ {'BadChar': 'bad', 'Limit': 'limit'}[it.of_kind.name]} {it.of_line}:{it.of_column} {text_of(it.of_detail)}, "
                 for it in values.items(line.of_notes))
        return f"{''.join(notes)}{line.of_number} {text_of(line.of_text)}|"
