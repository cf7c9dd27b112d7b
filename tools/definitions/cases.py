"""Cases of pages (page_cases, page_engine_cases), asked of the definitions: what a page gives, its record, what words find in an index, and what its
lines settle one by one; and the examples, cut between two lines.

A case has `title`, `cost()` to be sorted by, and `ask(pages)`: how many answers are right, how many are left to the program, and what is wrong, each with
its title, what is given and what is wanted.
"""
import glob
import os
import re

from . import values
from .pages import Settings, TOP, joined, optional, record
from .proving import script
from .values import changed

# pages that take more than half a minute each: they have so many bytes, lines taken or columns in a row
MOST_BYTES, MOST_LINES, MOST_COLUMNS = 20_000, 2_100, 1_500
LEVELS = {"BASE", "STYLE", "WARNING", "ERROR", "UNSUPP"}


def settings(words):
    """The settings of a case, by the words of its title (crates/page_cases/src/words.rt)."""
    found = {"least": "Base"}
    for word in words:
        key, _, value = word.partition("=")
        if key in ("width", "indent"):
            found[key] = int(value)
        elif key == "os":
            found[key] = value.encode()
        elif key == "level":
            found["least"] = value.capitalize()
        elif word in ("utf8", "lint"):
            found["output"] = word.capitalize()
        elif word in ("man", "mdoc"):
            found["language"] = word.capitalize()
        elif word.endswith("-bytes"):
            found["encoding"] = word.removesuffix("-bytes").capitalize()
        elif word in LEVELS:
            found["least"] = word.capitalize()
        elif word == "NONE":
            found["least"] = None
    return Settings(**found)


def repeated(text):
    """A text in which each `~N*TEXT~` stands for the text N times."""
    return re.sub(r"~(\d+)\*([^~]*)~", lambda found: int(found[1]) * found[2], text)


def lengthened(text):
    """What was wanted where equal characters and lines are written once: `~N*C~`, `N times LINE`."""
    return repeated(re.sub(r"(?m)^(\d+) times (.*\n)", lambda found: int(found[1]) * found[2], text))


class Case:
    """A case of a program that shows pages: its title, its settings, the bytes of its page, and what is wanted as text."""

    def __init__(self, title, page, shown, words, is_long_row):
        self.title, self.words, self.settings = title, words, settings(words)
        text = "".join(f"{line}\n" for line in page)
        text = repeated(text) if "times" in words else text
        self.page = text.encode("latin-1" if "bytes" in words else "utf-8")
        self.page = self.page[:-1] if "unended" in words else self.page
        self.wanted = "".join(f"{line}\n" for line in shown)
        self.wanted = lengthened(self.wanted) if "short" in words else self.wanted
        counts = re.search(r"^-- source \d+ taken (\d+) ", "\n".join(shown), re.M)
        self.taken, self.is_long_row = int(counts[1]) if counts else 0, is_long_row and len(max(self.wanted.split("\n"), key=len)) > MOST_COLUMNS

    def left_out(self):
        """Why the definitions are not asked, if they are not."""
        if {"rows", "messages"} & {word.partition("=")[0] for word in self.words}:
            return "writers that fail"
        if len(self.page) > MOST_BYTES or self.taken > MOST_LINES or self.is_long_row:
            return f"pages of more than {MOST_BYTES} bytes, {MOST_LINES} lines taken or {MOST_COLUMNS} columns in a row"
        return None

    def cost(self):
        return 20 * len(self.page) + self.taken

    def ask(self, pages):
        fault = pages.fault(self.settings)
        given = f"-- bad {fault.lower()}\n" if fault else self.given(pages)
        return (1, 0, []) if given == self.wanted else (0, 0, [(self.title, given, self.wanted)])

    def given(self, pages):
        shown = pages.show(self.settings, self.page, "x.1")
        return (shown.rows + shown.messages).decode() + self.last(shown)

    def last(self, shown):
        source, taken, expansions = shown.counts
        return f"-- source {source} taken {taken} expansions {expansions} worst {shown.worst.upper() if shown.worst else 'none'}\n"


class Line(Case):
    """A page whose lines come one by one (page_engine_cases): each by itself, from what is held before it. Their texts are fed, so that there are no messages
    about their bytes."""

    def given(self, pages):
        lines = [changed(line, ("of_notes",), None) for line in pages.lines(self.settings, self.page)]
        found = pages.show_cut(self.settings, lines, "x.1", [1] * len(lines))
        texts = [(shown.rows + shown.messages).decode() for shown in found]
        if "each" in self.words:
            texts = [f"-- line {line.of_number}\n{text}" for line, text in zip(lines, texts)] + texts[len(lines):]
        return "".join(texts) + self.last(found[-1]) + "-- then ended before\n"


class Cut:
    """An example that goes on after so many of its lines from what is held there: it is the same page."""

    def __init__(self, path, counts):
        self.title, self.path, self.counts = f"{os.path.relpath(path, TOP)} from what is held between two lines", path, counts

    def left_out(self):
        return None

    def cost(self):
        return 20 * os.path.getsize(self.path) * len(self.counts)

    def ask(self, pages):
        with open(self.path, "rb") as file:
            page = file.read()
        settings, wrong = Settings(least="Base"), []
        whole, lines = pages.show(settings, page, "x.1"), pages.lines(settings, page)
        for count in self.counts:
            if joined(pages.show_cut(settings, lines, "x.1", [count])) != whole:
                wrong.append((f"{self.title}, after {count}", "another page\n", "the page\n"))
        return len(self.counts) - len(wrong), 0, wrong


def cuts():
    """Each example at each of its lines, a few lines together."""
    for path in sorted(glob.glob(f"{TOP}/examples/*.*")):
        with open(path, "rb") as file:
            lines = file.read().count(b"\n")
        yield from (Cut(path, range(at, min(at + 10, lines + 1))) for at in range(0, lines + 1, 10))


class Record(Case):
    """The record of a page."""

    def given(self, pages):
        found = pages.program.function("Rattle.page_engine_records.specs.PageRecords", "page_record")(self.settings.value(), values.onto(self.page, None))
        if not found.arguments:
            return "none\n"
        names, section, description = (text_in(getattr(found.arguments[0], f"of_{field}")) for field in ("names", "section", "description"))
        return f"[{names}] ({section}) [{description}]\n"


class Search(Case):
    """What words find in an index (crates/page_cases/src/search_words.rt)."""

    def given(self, pages):
        asked = self.title.partition(": ")[0].removeprefix("scarce ").removeprefix("whatis ")
        shows_file, asked = asked.endswith(" -w"), asked.removesuffix(" -w")
        sought, dash, section = asked.partition(" -s=")
        index = repeated(self.page.decode()).replace("\\t", "\t").replace("\\r", "\r").replace("\\c\n", "")
        query = record({
            "words": values.onto([values.onto(word.encode(), None) for word in sought.split("|")], None),
            "section": values.constructed("Some", values.onto(section.encode(), None)) if dash else optional(None), "show": values.constructed("File" if shows_file else "Entry"),
        })
        found = pages.program.function("Rattle.page_engine_index.specs.Entries", "index")(values.onto(index.encode(), None))
        rows = values.items(pages.program.function("Rattle.page_engine_index.specs.Whatis", "rows")(query, found.of_entries))
        visible = pages.program.function("Rattle.page_engine_index.specs.Written", "visible")
        bad = found.of_bad.arguments
        return "".join(text_in(visible(row)) for row in rows) + (f"-- line {bad[0]}: bad index\n" if bad else f"-- {len(rows)} rows\n")


def text_in(cells):
    return bytes(values.items(cells)).decode()


def cases():
    worked = script("worked")
    for name in ("page_cases", "page_engine_cases"):
        folder = f"{TOP}/crates/{name}"
        for (_, title, page), (_, _, shown) in zip(worked.read(f"{folder}/stdin"), worked.read(f"{folder}/stdout")):
            front, colon, _ = title.partition(": ")
            is_search = "whatis" in front.split()[:2]
            words = front.split() if colon and not is_search and (name != "page_cases" or all(map(worked.is_word, front.split()))) else []
            kind = Line if name != "page_cases" else Search if is_search else Record if "record" in front.split()[:2] else Case
            yield kind(title, page, shown, front.split() if kind is Record else words, kind is Case)
