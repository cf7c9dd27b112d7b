"""How many lines there are of each kind, in all `.rt` and `.antt` files: what the program is made of, what is believed of it, and what proves and tests it.

The number of them all stays below a bound, which stands in docs/counts.txt: a change that needs more raises it, and its commit says what the lines buy.
What tools/worked writes is not counted, as it is not kept in the repository.
"""
import collections
import glob
import re

from rooms import TOP, lines

BOUND = "lines of .rt and .antt, at most"
# What begins a line of a contract, or of what only contracts use; it goes on in the lines that are further right than this one.
CONTRACT = re.compile(r"\s*(?:requires|ensures|ghost|prove!|#\[tactic)\b")
# What of specs/ is no definition to be read, by its folder.
APART = {"laws": "laws", "machines": "machine"}
# The first line of a file that is written by a script says so.
WRITTEN = "Written by tools/"
TESTS = re.compile(r"_(?:checks|cases)$|^page_(?:test_streams|worked|outline|preview)")


def contracts_in(text):
    """The lines of a source that are contracts."""
    margin = None
    for line in filter(str.strip, text):
        begins = len(line) - len(line.lstrip())
        if CONTRACT.match(line):
            margin = begins
        elif margin is None or begins <= margin:
            margin = None
            continue
        yield line.strip()


def sizes():
    """The number of lines of each kind."""
    found = collections.Counter({kind: 0 for kind in ("code", "contracts", "definitions", "laws", "machines", "proofs", "tests")})
    for crate in lines():
        for path in glob.glob(f"{TOP}/crates/{crate}/*/**/*", recursive=True):
            if not path.endswith((".rt", ".antt")) or f"/{crate}/out/" in path:
                continue
            with open(path, encoding="utf-8") as file:
                text = file.readlines()
            if text and WRITTEN in text[0]:
                continue
            if TESTS.search(crate):
                found["tests"] += len(text)
            elif path.endswith(".rt"):
                contracts = len(list(contracts_in(text)))
                found["contracts"] += contracts
                found["code"] += len(text) - contracts
            elif "/proofs/" in path:
                found["proofs"] += len(text)
            else:
                found[next((kind for kind, folder in APART.items() if f"/specs/{folder}" in path), "definitions")] += len(text)
    return found


def print_sizes():
    """Prints them, and their sum."""
    found = sizes()
    for kind, count in found.items():
        print(f"{count:7,} {kind}")
    print(f"{sum(found.values()):7,} lines of .rt and .antt")


def wrong_sizes(bound):
    """Whether there are more lines than the bound says."""
    count = sum(sizes().values())
    if count > bound:
        yield f"docs/counts.txt: there are {count:,} lines of .rt and .antt, and it says {bound:,} at most"
