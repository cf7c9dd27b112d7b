"""Folders that hold some of the crates, for `rt ci` to prove them there: it proves each crate once, begins with it as soon as all that it uses is
proved, and keeps what it proved for each later run on the machine, also for one in another folder.
"""
import os
import re
import shutil

TOP = os.path.dirname(os.path.dirname(os.path.abspath(__file__)))


def lines():
    """The line of each crate in crates.txt."""
    with open(f"{TOP}/crates.txt", encoding="utf-8") as file:
        return {re.match(r"\w+", line)[0]: line for line in file if re.match(r"\w", line)}


def with_used(names):
    """Crates with all that they use."""
    rows, found, waiting = lines(), set(), list(names)
    while waiting:
        name = waiting.pop()
        if name in rows and name not in found:
            found.add(name)
            waiting += rows[name].partition(":")[2].split()
    return found


def fill(room, names, edits=()):
    """Copies crates to an empty folder, with some of the edits of `edits/`, each as its crate and its file, and without any other."""
    with open(f"{room}/crates.txt", "w", encoding="utf-8") as file:
        file.writelines(line for name, line in lines().items() if name in names)
    shutil.copy(f"{TOP}/HANDLES", room)
    for name in names:
        shutil.copytree(f"{TOP}/crates/{name}", f"{room}/crates/{name}", ignore=shutil.ignore_patterns("out", "must-fail"))
    for edit in edits:
        name, file = edit.split("/")
        os.makedirs(f"{room}/crates/{name}/must-fail", exist_ok=True)
        shutil.copy(f"{TOP}/edits/{edit}", f"{room}/crates/{name}/must-fail/{file}")
