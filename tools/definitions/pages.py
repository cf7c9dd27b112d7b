"""What the definitions give for a page: its rows, its messages and its worst level, by `whole_page`, `row_bytes` and `message_bytes`; for which settings
there is one, and the status of a run over it."""
import os
import subprocess
from dataclasses import dataclass

from . import values
from .code import Program

TOP = os.path.dirname(os.path.dirname(os.path.dirname(os.path.abspath(__file__))))
RUNS, STREAMS = "Rattle.page_engine.specs.Runs", "Rattle.page_core_streams.specs.Streams"
SETTINGS, STATUS = "Rattle.page_core_base.specs.Settings", "Rattle.mandoc_command.specs.Status"
PAGE, EDGES, LINES = "Rattle.page_engine.specs.Page", "Rattle.page_engine.specs.Edges", "Rattle.page_roff_lines.specs.Lines"
FAULTS = ("Width", "Indent", "Os")
# so many results are kept for the next page, as rows of tables that it may name too
MOST = 1_500_000


@dataclass(frozen=True)
class Settings:
    """How a page is formatted, in the words of the settings' type."""
    output: str = "Ascii"
    width: int = 78
    indent: int | None = None
    language: str = "Auto"
    encoding: str = "Auto"
    least: str | None = None
    os: bytes = b""

    def value(self):
        fields = {
            "output": values.constructed(self.output), "width": self.width, "indent": optional(self.indent),
            "language": values.constructed(self.language), "encoding": values.constructed(self.encoding),
            "least": optional(self.least and values.constructed(self.least)), "os": record({"bytes": values.onto(self.os, None), "spare": None}),
        }
        return record(fields)


@dataclass(frozen=True)
class Shown:
    """Rows and messages as bytes, the worst level or none, and how many lines there are, are taken, and interpolations are made."""
    rows: bytes
    messages: bytes
    worst: str | None
    counts: tuple


def joined(parts):
    """What parts of a page give, one after the other: the last has its worst level and its counts."""
    return Shown(b"".join(part.rows for part in parts), b"".join(part.messages for part in parts), parts[-1].worst, parts[-1].counts)


def optional(value):
    return values.constructed("None") if value is None else values.constructed("Some", value)


def record(fields):
    labels = sorted(fields)
    return values.maker(tuple(f"of_{label}" for label in labels))(*(fields[label] for label in labels))


def kit():
    """The folder of the kit's library."""
    start = subprocess.run(["rt", "doc"], capture_output=True, text=True, check=True).stdout.strip()
    return f"{os.path.dirname(start)}/rattle"


class Pages:
    """The definitions of a page."""

    def __init__(self, crates=f"{TOP}/crates"):
        self.program = Program(crates, kit())
        self.whole_page = self.program.function(RUNS, "whole_page")
        self.row_bytes = self.program.function(STREAMS, "row_bytes")
        self.message_bytes = self.program.function(STREAMS, "message_bytes")
        self.settled, self.is_good = self.program.function(PAGE, "settled"), self.program.function(SETTINGS, "IsGood")

    def fault(self, settings):
        """The first fault for which settings are refused, if they are."""
        value, is_first = settings.value(), self.program.function(SETTINGS, "IsFirst")
        return None if self.is_good(value) else next(fault for fault in FAULTS if is_first(value, values.constructed(fault)))

    def status(self, worst):
        """The status of a run whose messages have this worst level, or none."""
        return self.program.function(STATUS, "status")(optional(worst and values.constructed(worst)))

    def show(self, settings, page, name):
        """What a page of these bytes gives, in a file of this name."""
        shown = self.shown(self.whole_page(settings.value(), values.onto(page, None)), name)
        self.program.forget_many(MOST)
        return shown

    def lines(self, settings, page):
        return values.items(self.program.function(LINES, "lines")(settings.value().of_encoding, values.onto(page, None)))

    def show_cut(self, settings, lines, name, counts):
        """What lines give of which so many, and then so many more, come first, each time from what is held there: what these settle, and the rest of the
        page."""
        edge, found, at = self.program.function(EDGES, "start")(settings.value()), [], 0
        for count in counts:
            laid = self.settled(edge, values.onto(lines[at:at + count], None))
            found.append(self.shown(laid, name))
            edge, at = laid.of_edge, at + count
        found.append(self.shown(self.program.function(PAGE, "page")(edge, values.onto(lines[at:], None)), name))
        self.program.forget_many(MOST)
        return found

    def shown(self, laid, name):
        file = values.onto(name.encode(), None)
        rows = [bytes(values.items(self.row_bytes(row))) for row in values.items(laid.of_rows)]
        messages = [bytes(values.items(self.message_bytes(file, note))) for note in values.items(laid.of_notes)]
        worst, roff = laid.of_edge.of_worst, laid.of_edge.of_lines.of_roff
        return Shown(
            b"".join(rows), b"".join(messages), worst.arguments[0].name if worst.arguments else None,
            (roff.of_source, roff.of_taken, roff.of_memory.of_expansions),
        )
