"""The parts of a source: the heads of its functions with their clauses, its types, constants, traits and macros, as they are in the code but for comments."""
import functools
import re
from dataclasses import dataclass

from counts import text_of

FUNCTION = re.compile(r"\s*(?:pub(?:\(\w+\))? )?(?:const )?(?:unsafe )?(?:ghost )?fn (\w+)")
GROUP = re.compile(r"(?:unsafe )?impl\b|(?:pub )?(?:unsafe )?trait\b")
NAMED = re.compile(r"(?:pub(?:\(\w+\))? )?(?:const|static|struct|enum|type|union|macro_rules!) (\w+)")
# what can be a type, a trait, a variant or a constant
ITEM = re.compile(r"\b[A-Z]\w*")


@dataclass(frozen=True, eq=False)
class Part:
    """A part of a source: its file, the names that lead to it, the first line of the `impl` or `trait` that it is in, and its lines."""

    path: str
    names: set
    within: str
    lines: list

    @property
    def function(self):
        """The name of the function that it is the head of."""
        found = FUNCTION.match(first_of(self.lines))
        return found and found[1]


def bare(text):
    """The lines of a text that are neither blank nor comments."""
    return [line for line in text.splitlines() if line.strip() and not re.match(r"\s*(?://|--( |$))", line)]


def blocks(lines, margin):
    """The blocks of lines that begin at a margin: what closes one belongs to it, and so do the attributes before it."""
    block, is_attribute = [], False
    for line in lines:
        begins = line.startswith(margin) and line[len(margin)] not in " >})]{"
        if begins and block and not is_attribute:
            yield block
            block = []
        block.append(line)
        is_attribute = line.strip().startswith("#[") and line.rstrip().endswith("]")
    if block:
        yield block


def first_of(block):
    """The line that a block begins with, after its attributes."""
    return next((line for line in block if not line.strip().startswith("#")), block[0])


def head_of(block, margin):
    """A function without its body."""
    for at, line in enumerate(block):
        if line in (margin + "{", margin + "{}"):
            return block[:at]
        if line.endswith((" {", "{}")) and (FUNCTION.match(line) or line.startswith(margin + ")")):
            return [*block[:at], line.rstrip("{} ")]
    return block


def types_of(first):
    """The types that an `impl` or a `trait` is about; where it is for any type, its trait."""
    trait, _, of_type = first.partition(" for ")
    return {name for name in ITEM.findall(of_type or trait) if len(name) > 1} or set(ITEM.findall(trait))


def parts_of_group(path, block):
    """The parts of an `impl` or a `trait`. Who reaches a type reaches all that is implemented for it; its own functions have names of their own."""
    first = first_of(block)
    types, rest, is_of_type, is_of_trait = types_of(first), [], first.startswith(("impl", "unsafe impl")), " for " in first
    for inner in blocks(block[block.index(first) + 1:], "    "):
        begun = first_of(inner)
        found = FUNCTION.match(begun)
        if not found:
            rest += inner
        elif is_of_trait or not is_of_type or begun.startswith("    pub"):
            yield Part(path, {found[1], *(types if is_of_trait else ())}, first, head_of(inner, "    "))
    yield Part(path, types, "", [first, *rest])


@functools.lru_cache(maxsize=None)
def parts_of(path):
    """The parts of a source that another crate can name."""
    found = []
    for block in blocks(bare(text_of(path)), ""):
        first = first_of(block)
        if GROUP.match(first):
            found += parts_of_group(path, block)
        elif (function := FUNCTION.match(first)) and first.startswith("pub"):
            found.append(Part(path, {function[1]}, "", head_of(block, "")))
        elif named := NAMED.match(first):
            found.append(Part(path, {named[1]}, "", block))
    return found
