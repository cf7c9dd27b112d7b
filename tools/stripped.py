#!/usr/bin/env python3
"""Takes out of a module what an unproved build has more than a proved one: tools/stripped.py < MODULE.ll > FAST.ll, both as LLVM's text.

That is: checks of indexes, sums and divisions, traps, and rooms of variables that are filled before they are used; frame pointers and AddressSanitizer; and
the functions that the sources mark `inline(always)`, `inline(never)` or `cold` get these marks back, which the kit's trial leaves out.
"""
import glob
import re
import sys

from rooms import TOP

MARKS = {
    "inline(always)": "alwaysinline",
    "inline(never)": "noinline",
    "inline": "inlinehint",
    "cold": "cold noinline",
}
MARK = re.compile(r"\s*#\[(inline\((?:always|never)\)|inline|cold)\]")
FUNCTION = re.compile(r"\s*(?:pub(?:\([^)]*\))?\s+)?(?:const\s+)?(?:unsafe\s+)?fn\s+(\w+)")
CHECK = re.compile(r'\s+call void (?:@llvm\.trap\(\)|@"rattle-llvm-checks::|@llvm\.memset\.p0\.i64\(ptr %\w+, i8 -86,)')
ATTRIBUTES = re.compile(r"attributes (#0|#8) = ")
FAST = 'attributes {} = {{ nounwind "target-cpu"="x86-64-v2" }}\n'


def marks():
    """The marks of functions, by crate, module and name."""
    found = {}
    for path in glob.glob(f"{TOP}/crates/*/src/**/*.rt", recursive=True):
        crate, _, file = path.removeprefix(f"{TOP}/crates/").partition("/src/")
        module = tuple(part for part in file.removesuffix(".rt").split("/") if part not in ("lib", "main", "mod"))
        mark = None
        with open(path, encoding="utf-8") as source:
            for line in source:
                if marked := MARK.match(line):
                    mark = MARKS[marked[1]]
                elif function := FUNCTION.match(line):
                    if mark:
                        found.setdefault((crate, module, function[1]), mark)
                    mark = None
    return found


def mark_of(marked, line):
    """The mark of the function that a line defines, whose name begins with its crate and its module."""
    crate, *names = re.sub(r"::<.*$", "", re.search(r'@"([^"]*)"', line)[1]).split("::") if '@"' in line else [""]
    for count in range(len(names) - 1, -1, -1):
        if mark := marked.get((crate, tuple(names[:count]), names[-1])):
            return mark
    return None


def main():
    marked = marks()
    for line in sys.stdin:
        if line.startswith("  call") and CHECK.match(line):
            continue
        if line.startswith("define") and (mark := mark_of(marked, line)):
            line = line.replace(" #0 {", f" #0 {mark} {{")
        elif attributes := ATTRIBUTES.match(line):
            line = FAST.format(attributes[1])
        sys.stdout.write(line)


main()
