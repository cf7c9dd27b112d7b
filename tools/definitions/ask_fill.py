"""Pieces and the rows that they give (page_fill_cases), by `filled` and `row_end`."""
from . import values
from .asking import NONE, Costly, font, listed, messages_shown, number, one, place, record, rows_of
from .values import NO, YES

HERE = place(3, 7)
# the most pieces that are asked at once
MOST = 1_500


def piece(name, *arguments):
    return values.constructed(name, *arguments)


def text(letters, face="R"):
    return piece("Text", listed(letters), font(face), HERE)


def tag(hang, form):
    return piece("Tag", hang, form)


SCRIPT = {
    "_": piece("Blank", 1, NO), "=": piece("Blank", 2, NO), ">": piece("Blank", 1, YES), "+": one("Glue"), "-": one("Split"), "/": one("Break"),
    "|": one("RowEnd"), "O": piece("Para", 0), "P": piece("Para", 1), "Q": piece("Para", 2), "S": piece("Space", 1), "H": one("Heading"),
    "L": piece("Literal", YES), "M": piece("Indent", 1, 2), "R": tag(4, one("Row")), "N": tag(4, one("Hang")), "I": tag(4, piece("Inset", 2)),
    "E": one("TagEnd"), "C": piece("Column", 4), "T": piece("Tab", font("R"), HERE), ".": text(""),
}


def one_piece(call, words):
    """The piece of a call, if it is one."""
    digits, _, rest = words.partition(" ")
    count = number(digits)
    return {
        "text": lambda: text(words), "glyph": lambda: piece("Glyph", listed(words), font("R"), HERE),
        "blanks": lambda: text(" " * min(count, 8_193), rest[:1]), "filled": lambda: piece("Literal", NO), "space": lambda: piece("Space", count),
        "para": lambda: piece("Para", count), "indent": lambda: piece("Indent", count, count), "tag": lambda: tag(count, one("Row")),
    }.get(call, lambda: None)()


def words_pieces(words):
    """Words after so many blanks, each letter in its font."""
    blanks, _, words = words.partition(" ")
    fonts, _, words = words.partition(" ")
    found = [piece("Blank", number(blanks), NO)]
    return found + [piece("Blank", 1, NO) if c == " " else text(c, fonts[at:at + 1]) for at, c in enumerate(words)]


class Filling:
    def __init__(self, asked, settings=(78, "Ascii")):
        self.asked, (width, output) = asked, settings
        self.edge = asked.call("page_fill.Words.start", record(
            output=one(output), width=width, indent=NONE, language=one("Auto"), encoding=one("Auto"), least=NONE, os=record(bytes=None, spare=None)))

    def answer(self, line, wanted):
        call, _, words = line.partition(" ")
        if wanted.endswith(" -> failed before\n"):
            # (what a filler answers after its end is in no definition)
            return None
        if call == "cells":
            return f" -> {values.length(self.edge.of_sheet.of_cells)}"
        if call == "blank-rows":
            return f" -> {self.edge.of_sheet.of_blank_rows}"
        if call in ("words", "kept"):
            return self.at_once(call, words, wanted)
        pieces = self.pieces(call, words)
        if pieces is None:
            return ""
        if len(pieces) > MOST:
            raise Costly
        return self.give(pieces, call in ("rows", "end"))

    def at_once(self, call, words, wanted):
        """What is given at once; which words are taken so is in no definition of the book, and what they give is."""
        if wanted.endswith("not taken\n"):
            return None
        if call == "kept":
            face, _, words = words.partition(" ")
            return " -> taken" + self.give([text(words, face[:1])] if words else [], False)
        return self.give(words_pieces(words) if words.split(" ", 2)[2:] != [""] else [], False)

    def pieces(self, call, words):
        if call in ("script", "rows"):
            return [SCRIPT.get(c) or text(c) for c in words]
        if call == "end":
            return []
        if call == "repeated":
            count, _, words = words.partition(" ")
            return [text(words)] * number(count)
        if call == "parts":
            accents = [text("\u0301")] * 63
            return [*accents, text("-"), SCRIPT["-"]] * 64
        found = one_piece(call, words)
        return [found] if found else None

    def give(self, pieces, ends):
        items = values.onto([piece("shown", it) for it in pieces], None)
        laid = self.asked.call("page_fill.Filling.filled", self.edge, items)
        rows, notes, self.edge = values.items(laid.of_rows), values.items(laid.of_notes), laid.of_edge
        if ends:
            last = self.asked.call("page_fill.Filling.row_end", self.edge)
            rows, notes, self.edge = rows + values.items(last.of_rows), notes + values.items(last.of_notes), last.of_edge
        return rows_of(self.asked, values.onto(rows, None)) + messages_shown(self.asked, "t", values.onto(notes, None))
