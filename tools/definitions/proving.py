"""A page as a clause that the prover computes, as those of `page_worked`: `Shows`, with what the definitions give for the page (pages.py)."""
import importlib.machinery
import importlib.util
import os
import shutil
import subprocess
import sys
import tempfile

from rooms import TOP, fill, with_used

CRATE = "page_worked"
HEAD = "//! A page, and what the definitions give for it. Written by tools/define.\n#![tactic(auto)]\n\npub mod asked;\n"


def script(name):
    """A script of tools/, as a module."""
    loader = importlib.machinery.SourceFileLoader(name, f"{TOP}/tools/{name}")
    module = importlib.util.module_from_spec(importlib.util.spec_from_loader(name, loader))
    loader.exec_module(module)
    return module


def lines_of(text):
    """The lines of a text, each of which ends with a line feed."""
    lines = text.decode().split("\n")
    if lines.pop() != "":
        raise ValueError("the last line has no line feed")
    return lines


def settings_term(worked, settings):
    """Settings as a definition writes them."""
    words = [f"width={settings.width}", settings.least.upper() if settings.least else "NONE"]
    words += [settings.output.lower()] if settings.output != "Ascii" else []
    words += [settings.language.lower()] if settings.language != "Auto" else []
    words += [f"{settings.encoding.lower()}-bytes"] if settings.encoding != "Auto" else []
    words += [f"indent={settings.indent}"] if settings.indent is not None else []
    words += [f"os={settings.os.decode()}"] if settings.os else []
    return worked.settings(words)


def clause(worked, settings, page, shown):
    terms = "\n        ".join(worked.wrapped("", lines_of(text)) for text in (page, shown.rows, shown.messages))
    return f"    ensures shows {{ Shows {settings_term(worked, settings)}\n        {terms} }}"


def fill_crate(room, worked, text):
    """The crate of worked pages with this one alone."""
    folder, own = f"{room}/crates/{CRATE}", f"{room}/crates/{CRATE}/proofs/asked/page_asked"
    for part in ("src", "proofs"):
        shutil.rmtree(f"{folder}/{part}", ignore_errors=True)
    os.makedirs(own)
    os.makedirs(f"{folder}/src")
    unfolded, count = worked.unfolded()
    uses = "\n".join(worked.used(text))
    files = {
        "src/lib.rt": HEAD,
        "src/asked.rt": f"//! The page.\n\n{uses}\n\n/// A page, and what the definitions give for it.\npub fn page_asked()\n{text}\n{{}}\n",
        "proofs/Lib.antt": "pub mod Unfolded\n",
        "proofs/Unfolded.antt": unfolded,
        "proofs/asked/page_asked/Answers.antt": worked.answers("asked", "page_asked", count),
    }
    for path, content in files.items():
        with open(f"{folder}/{path}", "w", encoding="utf-8") as file:
            file.write(content)


def prove(pages, settings, name):
    """Has the prover compute what the definitions give for a page, in a copy of the crates, and answers its status."""
    worked = script("worked")
    with open(name, "rb") as file:
        page = file.read()
    text = clause(worked, settings, page, pages.show(settings, page, "x.1"))
    print(text, flush=True)
    with tempfile.TemporaryDirectory(prefix="define-") as room:
        fill(room, with_used([CRATE]))
        fill_crate(room, worked, text)
        return subprocess.run(["rt", "check"], cwd=f"{room}/crates/{CRATE}", stdout=sys.stderr).returncode
