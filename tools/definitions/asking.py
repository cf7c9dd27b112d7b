"""Cases of layers, asked of the definitions: each line of a file `stdin` of a program of cases is a call, of which `stdout` has what it gives.

A layer is a class with `answer(line, wanted)`: the text that the program is to print after the line, or none where the line asks for what is in no
definition of the book (as which words are taken at once). What it cites is found by `Definitions.call`.
"""
import re

from . import values

RUN = 1_000


class Costly(Exception):
    """A call whose answer takes too long: it is left to the program, and so are those after it that work on the same."""


class Definitions:
    """The definitions by short names: `page_core_numbers.Columns.columns_of` is that of `crates/page_core_numbers/specs/Columns.antt`."""

    def __init__(self, program):
        self.program = program

    def call(self, name, *arguments):
        crate, file, own = name.split(".")
        return self.program.function(f"Rattle.{crate}.specs.{file}", own)(*arguments)


# ---- values


def listed(text):
    """The bytes of a text."""
    return values.onto(text.encode() if isinstance(text, str) else text, None)


def text_of(cells):
    """A text by its bytes, as the programs of cases show it."""
    try:
        return bytes(values.items(cells)).decode()
    except UnicodeDecodeError:
        return "not UTF-8"


def some(value):
    return values.constructed("Some", value)


def one(name):
    return values.constructed(name)


NONE = one("None")


def option(value):
    """What an option has, or none."""
    return value.arguments[0] if value.arguments else None


def record(**fields):
    labels = sorted(fields)
    return values.maker(tuple(f"of_{label}" for label in labels))(*(fields[label] for label in labels))


def values_of(cells):
    return values.items(cells)


def integer(value):
    """The number that `pos n` or `negsuc n` is."""
    return value.arguments[0] if value.name == "pos" else -1 - value.arguments[0]


def whole(number):
    return values.constructed("pos", number) if number >= 0 else values.constructed("negsuc", -1 - number)


def place(line, column):
    return record(line=line, column=column)


FONTS = {"B": "B", "I": "I", "X": "BI"}


def font(letter):
    return one(FONTS.get(letter, "R"))


# ---- what is shown


def repeated(text):
    """A text in which each `~N*TEXT~` stands for the text N times."""
    found = []
    for index, part in enumerate(text.split("~")):
        times, star, inner = part.partition("*")
        found.append(number(times, 1) * inner if star and index % 2 else part)
    return "".join(found)


def bytes_of(text):
    """The bytes of such a text, in which `^` and two digits of base 16 stand for a byte."""
    return re.sub(rb"\^([0-9A-F]{2})", lambda found: bytes([int(found[1], 16)]), repeated(text).encode())


def number(digits, other=0):
    """The number that digits are, or another one where they are none."""
    return int(digits) if re.fullmatch(r"\+?[0-9]+", digits) and int(digits) < 2 ** 32 else other


def runs(text):
    """A text; of a long one each run of a character, as `N*C`."""
    if len(text.encode()) <= RUN:
        return text
    found = ((len(run[0]), run[1]) for run in re.finditer(r"(.)\1*", text, re.S))
    return "".join(letter if times == 1 else f"{times}*{letter}" for times, letter in found)


def rows_shown(rows):
    """Rows, with a bar after each."""
    return f" -> {''.join(runs(row) + '|' for row in rows.split(chr(10))[:-1])}" if rows else ""


def messages_shown(asked, file, notes):
    """Messages about a file, a line for each."""
    return "".join("\n" + text_of(asked.call("page_core_streams.Streams.message_bytes", listed(file), note)).rstrip("\n") for note in values.items(notes))


def rows_of(asked, rows):
    return rows_shown("".join(text_of(asked.call("page_core_streams.Streams.row_bytes", row)) for row in values.items(rows)))


# ---- the lines of a file, with what is wanted of each


def aligned(lines, wanted):
    """What is wanted of each line: the texts of `stdout`, which each begin with a line of `stdin`; below `==== scopes` they are of two lines."""
    at, found, is_scopes = 0, [], False
    for line, following in zip(lines, [*lines[1:], None]):
        if not wanted.startswith(line, at):
            raise ValueError(f"the answer to {line!r} is missing")
        end = wanted.find("\n", at) + 1
        if is_scopes and line.partition(" ")[0] not in ("new", "page"):
            end = wanted.find("\n", end) + 1
        elif following is None:
            end = len(wanted)
        elif not is_scopes:
            end = wanted.find("\n" + following, at + len(line)) + 1
        is_scopes = is_scopes or line == "==== scopes"
        found.append(wanted[at:end])
        at = end
    return found
