"""One page of the book layer by layer (tools/book): what each layer of the definitions gives for it, and what is printed."""
import html
import os
import re

from . import values
from .book_values import shown
from .pages import Settings

LINES, ACTS, TREES, FILLING = (f"Rattle.{name}" for name in (
    "page_roff_lines.specs.Lines", "page_engine_lines.specs.Acts", "page_engine_lines.specs.Trees", "page_fill.specs.Filling"))


def layers(pages, path):
    """The bytes of a page and what is printed for it, as texts; and of each layer its definition, where that is, and what it gives."""
    with open(path, "rb") as file:
        page = file.read()
    settings, call = Settings(least="Base"), pages.program.function
    printed, value = pages.show(settings, page, os.path.basename(path)), settings.value()
    edge = call("Rattle.page_engine.specs.Edges", "start")(value)
    raw = call("Rattle.page_engine.specs.Page", "raw_lines")(call(LINES, "lines")(value.of_encoding, values.onto(page, None)))
    given = call("Rattle.page_roff_source.specs.Runs", "given")(edge.of_lines.of_roff, raw)
    body, steps = call(ACTS, "reader")(edge.of_lines.of_body, given), call(ACTS, "rest_steps")(edge.of_lines.of_body, given)
    items = call(ACTS, "lines_items")(edge.of_lines, raw)
    return page.decode(errors="replace"), (printed.rows + printed.messages).decode(), [
        ("lines", "page_roff_lines/specs/Lines.antt", raw), ("given", "page_roff_source/specs/Runs.antt", given),
        ("rest_steps", "page_engine_lines/specs/Acts.antt", steps),
        ("tree_of", "page_engine_lines/specs/Trees.antt", call(TREES, "tree_of")(body, steps).of_here),
        ("lines_items", "page_engine_lines/specs/Acts.antt", items), ("groups", "page_fill/specs/Filling.antt", call(FILLING, "groups")(items)),
        ("filled", "page_fill/specs/Filling.antt", call(FILLING, "filled")(edge.of_fill, items).of_rows),
    ]


def forest(siblings, margin=""):
    """A block tree, a line for each step; what is in a node stands further in, and the act that ends it follows."""
    while siblings.name != "none":
        own = siblings.arguments
        if siblings.name in ("leaf", "refused"):
            yield margin + (shown(own[0], 7) if siblings.name == "leaf" else f"refused: {shown(own[0])} {shown(own[1], 7)}")
            siblings = own[-1]
            continue
        yield f"{margin}node {shown(own[0])}, by {shown(own[1], 7)}"
        yield from forest(own[2], margin + "    ")
        if siblings.name == "open_node":
            return
        yield f"{margin}it ends by {shown(own[3], 7)}"
        siblings = own[4]


def worked_page(name, found, link):
    page, printed, given = found
    yield f"<h1>{html.escape(name)}, layer by layer</h1><pre>{html.escape(page, quote=False)}</pre>"
    for definition, home, value in given:
        texts = forest(value) if definition == "tree_of" else (shown(it, 7) for it in values.items(value))
        lines = "\n".join(html.escape(text, quote=False) for text in texts)
        yield f"<h2>{link((home, definition), definition)}</h2><pre class=w>{lines}</pre>"
    bold = re.sub("(.)\b\\1", r"<b>\1</b>", re.sub("_\b(.)", r"<u>\1</u>", html.escape(printed, quote=False)))
    yield f"<h2>What is printed</h2><pre class=p>{bold.replace('</b><b>', '').replace('</u><u>', '')}</pre>"
