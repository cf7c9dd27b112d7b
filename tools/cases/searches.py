"""The cases of whatis(1), by what its manual says."""
from cases.parts import BAD_COMMAND, INDEX, LONG, LOST_INDEX, WHOLE, Case, Folder, Link, Locked, Pipe, notes, out

# An index to look words up in, one of the first version, one with sections in either case, one with a bad line, one with names of files from
# elsewhere, and those as they are shown.
ENTRIES = "whatis 2\nls, dir\t1\tlist files\tman1/ls.1\nlsof\t8\tlist open files\t\ngit-ls\t1\tx\tman1/g.1\n"
FIRST = "whatis 1\nls\t1\tlist files\n"
CASES_OF_SECTIONS = "whatis 2\nssl\t1SSL\ta tool\tman1/ssl.1SSL\nssl\t1ssl\tanother\tman1/ssl.1ssl\n"
BAD = "whatis 1\nls\t1\tx\na\t1\nls\t2\tx\n"
FROM_ELSEWHERE = "whatis 2\nls\t1\t\u202ex\t../\x1b\u009b\u061c\u202a\u202e\u2066\u2069\u2028\u2029\U000e0000\U000e007f\u202f\u00e9\n"
SHOWN = "../???????????\u202f\u00e9\n"
# One with control characters of each kind in its fields, and as they are shown; characters right beside these are shown as they are.
WITH_CONTROLS = "whatis 2\nls\x1b]0;t\x07\t1\x00\x1f\t\x7f\u0080\u009f\u00a0 ~\u00c2\u202ex\tman1/ls.1\n"
SHOWN_CONTROLS = "ls?]0;t?(1??) - ???\u00a0 ~\u00c2\u202ex\n"
# One with more entries than are printed at once.
MANY = "whatis 2\n" + "".join(f"ls-{number}\t1\tx\tman1/{number}.1\n" for number in range(2_000))

UNOPENED = "mandoc: ./whatis.idx: cannot open\n"


def found(words, text, index=ENTRIES):
    """A search that prints this, and has the status 0, or nothing, and has the status 1."""
    return Case(["whatis", *words], [out(text)] if text else [], 0 if text else 1, before={INDEX: index})


CASES = {
    # DESCRIPTION
    "prints each entry of an index of which one of the words occurs in a name, in the index's order": [
        found(["ls"], "ls, dir(1) - list files\ngit-ls(1) - x\n"),
        found(["lsof", "dir"], "ls, dir(1) - list files\nlsof(8) - list open files\n"),
        found(["ls", "dir"], "ls, dir(1) - list files\ngit-ls(1) - x\n"),
    ],
    "A word is found where it occurs by itself, with no letter, digit or underscore of ASCII next to it; the case of letters makes no difference.": [
        found(["lso"], ""),
        found(["LSOF"], "lsof(8) - list open files\n"),
        found(["git"], "git-ls(1) - x\n"),
    ],
    "No word may be empty.": [Case(["whatis", "ls", ""], [notes(BAD_COMMAND)], 5, before={INDEX: ENTRIES})],
    # OPTIONS
    "The directory of the index; without it, the current one.": [
        Case(["whatis", "-M", "empty", "ls"], [out("ls(1) - list files\n")], before={"empty/whatis.idx": FIRST, INDEX: ENTRIES}),
        found(["-M", ".", "dir"], "ls, dir(1) - list files\n"),
    ],
    "Only entries of this section are printed, as the page's title gives it.": [
        found(["-M", ".", "-s", "1SSL", "ssl"], "ssl(1SSL) - a tool\n", CASES_OF_SECTIONS),
        found(["-M", ".", "-s", "1ssl", "ssl"], "ssl(1ssl) - another\n", CASES_OF_SECTIONS),
        found(["-M", ".", "-s8", "dir"], ""),
        found(["-s", "", "ls"], ""),
    ],
    "The file of each page is printed, below the directory, in place of its entry": [
        found(["-w", "-s", "8", "fsck", "cat"], "man8/fsck.8\n", WHOLE),
        found(["-wM", ".", "LSOF", "DIR"], "man1/ls.1\n"),
        found(["-w", "ls"], SHOWN, FROM_ELSEWHERE),
    ],
    "Entries of which the index knows no file are passed over.": [found(["-w", "lsof"], ""), found(["-w", "ls"], "", FIRST)],
    "Each is given at most once, before, between or after the words.": [
        found(["ls", "-w", "dir", "-s1"], "man1/ls.1\nman1/g.1\n"),
        Case(["whatis", "-w", "ls", "-w"], [notes(BAD_COMMAND)], 5, before={INDEX: ENTRIES}),
    ],
    # FILES
    "An index whose first line is whatis 1 has no files.": [found(["ls"], "ls(1) - list files\n", FIRST)],
    "What is printed of an entry, other than its file, is written as it is in the index": [
        found(["ls"], "ls(1) - \u202ex\n", FROM_ELSEWHERE),
        found(["ls"], "".join(f"ls-{number}(1) - x\n" for number in range(2_000)), MANY),
    ],
    "but with ? for each control character": [found(["ls"], SHOWN_CONTROLS, WITH_CONTROLS), found(["-w", "ls"], "man1/ls.1\n", WITH_CONTROLS)],
    # EXIT STATUS
    "An entry or a file was printed.": [
        found(["lsof"], "lsof(8) - list open files\n"),
        Case(["whatis", "lsof"], [out("lsof(8) - list open files\n")], before={INDEX: ENTRIES}, input=ENTRIES, unread=True),
    ],
    "None was.": [found(["zzz"], ""), found(["ls"], "", "")],
    "The command line is refused; so it is where no word is named, or a word or the directory is empty.": [
        Case(["whatis", *words], [notes(BAD_COMMAND)], 5, before={INDEX: ENTRIES})
        for words in ([], ["-w"], [""], ["-M", "", "ls"], ["-n", "ls"], ["ls", b"\xe9"])
    ],
    # DIAGNOSTICS
    "The index is missing, may not be read, or is not a regular file: a FIFO, which might be waited for, is not opened.": [
        Case(["whatis", "ls"], [notes(UNOPENED)], 6),
        *(Case(["whatis", "ls"], [notes(UNOPENED)], 6, before={INDEX: what}) for what in (Pipe, Folder, Link("/dev/zero"), Link("missing"))),
        Case(["whatis", "ls"], [notes(UNOPENED)], 6, before={"pipe": Pipe, INDEX: Link("pipe")}),
        Case(
            ["whatis", "-M", "empty", "ls"],
            [notes("mandoc: empty/whatis.idx: cannot open\n")],
            6,
            before={"empty/whatis.idx": ENTRIES, "empty": Locked},
        ),
        Case(["whatis", "-M", "a\u202e", "ls"], [notes("mandoc: a?/whatis.idx: cannot open\n")], 6),
        Case(["whatis", "-M", LONG, "ls"], [notes(f"mandoc: {LONG}/whatis.idx: cannot open\n")], 6),
    ],
    "Reading the index failed before its end.": [
        Case(["whatis", "ls"], [notes("mandoc: ./whatis.idx: cannot read\n")], 6, before={INDEX: Link("/proc/self/mem")}),
    ],
    "What was found could not be printed. So it is where the reader of a pipe quits.": [
        Case(["whatis", "-M", ".", "ls"], [out("ls, d"), notes(LOST_INDEX)], 6, before={INDEX: ENTRIES}, most=5),
        Case(["whatis", "ls"], [notes(LOST_INDEX)], 6, before={INDEX: ENTRIES}, full="out"),
        Case(["whatis", "-w", "ls"], [notes(LOST_INDEX)], 6, before={INDEX: ENTRIES}, quits="out"),
    ],
    "This line of the index is not what mandoc-makewhatis 1 writes, or has more than 65,536 bytes. Nothing behind it is read.": [
        Case(["whatis", "ls"], [out("ls(1) - x\n"), notes("mandoc: ./whatis.idx: line 3: bad index\n")], 6, before={INDEX: BAD}),
        Case(["whatis", "ls"], [notes("mandoc: ./whatis.idx: line 1: bad index\n")], 6, before={INDEX: "whatis 3\n"}),
        Case(["whatis", "x"], [notes("mandoc: ./whatis.idx: line 2: bad index\n")], 6, before={INDEX: f"whatis 1\nx\t1\t{'x' * 65_533}\n"}),
    ],
}
