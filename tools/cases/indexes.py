"""The cases of makewhatis(8), by what its manual says."""
from cases.parts import (
    BAD_COMMAND, EMPTY, FSCK, INDEX, LONG, LOST_INDEX, LS, MODE, OLD, QUIET, STACK, WHOLE, ZED,
    Case, File, Folder, Link, Locked, Pipe, notes, out,
)

WITHOUT_CAT = f"whatis 2\n{ZED}{LS}{FSCK}"
# What is printed in the place of an index, and of one page in it.
PRINTED = "zed(1) - last\ncat(1) - print files\nls, dir(1p) - list files\nfsck(8) - check disks\n"
PRINTED_WITHOUT_CAT = PRINTED.replace("cat(1) - print files\n", "")
# An index without an entry, and the one of the quiet page.
NONE, ONE = "whatis 2\n", "whatis 2\nt\t1\tx\tman1/t.1\n"
# A page of each of the nine folders, and their index.
NINE = {f"nine/man{n}/p.{n}": f".TH P {n}\n.SH NAME\np{n} \\- x\n" for n in range(1, 10)}
NINE_INDEX = "whatis 2\n" + "".join(f"p{n}\t{n}\tx\tman{n}/p.{n}\n" for n in range(1, 10))
# What a page that is compressed by each program begins with, and bytes that only nearly do.
# (bzip2 writes the size of its blocks, 1 to 9, and after that the first of them, or the end where there is none)
HEADS = {
    "gz": b"\x1f\x8b\x08\0",
    "xz": b"\xfd7zXZ\0",
    "bz2": b"BZh91AY&SY",
    "1.bz2": b"BZh1\x17rE8P\x90",
    "zst": b"\x28\xb5\x2f\xfd\x04",
}
NEARLY = [
    *(b"\x1f\x8a", b"\xfd7zXY\0", b"\xfd7zXZ\1", b"\x28\xb5\x2f\xfc"),
    *(b"BZ", b"BZh", b"BZh is text\n", b"BZh01AY&SY", b"BZh:1AY&SY", b"BZh91AY&SX", b"BZh91AY&S"),
]
COMPRESSED = {f"empty/man1/{name}.1.{name}": head + QUIET.encode() for name, head in HEADS.items()}
ONE_COMPRESSED = {"empty/man8/b.8.gz": HEADS["gz"], "empty/man1/t.1": QUIET}
PASSED_OVER = "mandoc: empty: 5 compressed pages passed over\n"

LOST_CAT = "mandoc: ./man1/cat.1: cannot open\n"
LOST_FOLDER = "mandoc: ./man1: cannot open\n"
LOST_EMPTY = "mandoc: empty/whatis.idx: cannot write\n"
HIDDEN, SHOWN = "a\n\u202e\u2028\U000e0041", "a????"


def page(text):
    """A case of one page, whose record is this entry, or none."""
    source, entry = text
    return Case(["makewhatis", "empty"], before={"empty/man1/p.1": source}, after={EMPTY: NONE + entry})


CASES = {
    # DESCRIPTION
    "collects what the manual pages below each directory are called and what they are for, and writes that to an index in the directory": [
        Case(["makewhatis", "."], before={INDEX: OLD}, after={INDEX: WHOLE}),
        Case(["makewhatis", "."], after={INDEX: WHOLE}, full="out"),
        Case(["makewhatis", ".", "empty"], after={INDEX: WHOLE, EMPTY: NONE}),
        Case(
            ["makewhatis", "bad", "empty"],
            [notes("mandoc: bad/man1/x.1: cannot open\n")],
            6,
            before={"bad/man1/x.1": Link("missing")},
            after={"bad/whatis.idx": NONE, EMPTY: NONE},
        ),
    ],
    "The pages are the files in man1 to man9, in the order of these folders and of the bytes of the files' names.": [
        Case(["makewhatis", "nine"], before=NINE, after={"nine/whatis.idx": NINE_INDEX}),
        Case(["makewhatis", "empty"], before={"empty/man1/.t.1": QUIET}, after={EMPTY: "whatis 2\nt\t1\tx\tman1/.t.1\n"}),
    ],
    "They are written in man 7 or mdoc 7; each page decides.": [Case(["makewhatis", "-n", "."], [out(PRINTED)])],
    "A missing folder is ignored": [Case(["makewhatis", "empty"], after={EMPTY: NONE})],
    "so is what is not a regular file, such as a folder, a device or a FIFO, or a link to one.": [
        Case(
            ["makewhatis", "empty"],
            before={
                "empty/man1/f.1": Pipe,
                "empty/man1/g.1": Link("f.1"),
                "empty/man1/n.1": Link("/dev/zero"),
                "empty/man1/d.1/t.1": QUIET,
                "empty/man1/t.1": QUIET,
            },
            after={EMPTY: ONE},
        ),
        Case(["makewhatis", "empty"], before={"empty/man1/t.1": Link("../../quiet.1")}, after={EMPTY: ONE}),
    ],
    "So is a file whose name is not text in UTF-8, has a control character or, with that of its folder, more than 4,096 bytes.": [
        Case(["makewhatis", "empty"], before={"empty/man1/\udce9.1": QUIET, "empty/man1/a\tb.1": QUIET, "empty/man1/t.1": QUIET}, after={EMPTY: ONE}),
    ],
    "An entry of the index is taken from the first section NAME of a page, as it would be printed in ASCII, without fonts": [
        page((".TH U 1\n.SH NAME\nu \\- \u00e9\n", "u\t1\te\tman1/p.1\n")),
        page(("'\\\" t\n.TH U 1\n.SH NAME\nu \\- x\n", "u\t1\tx\tman1/p.1\n")),
        Case(["makewhatis", "empty"], before={f"empty/man1/{LONG}": QUIET}, after={EMPTY: ONE.replace("t.1", LONG)}, input=QUIET, unread=True),
        page((".TH U 1\n.SH X\na \\- b\n.SH NAME\n\\fBu\\fR, v \\- \\fIx\\fR\n.SH NAME\nc \\- d\n", "u, v\t1\tx\tman1/p.1\n")),
    ],
    "The section of the manual is that of the page's title.": [page((".TH U 3p\n.SH NAME\nu \\- x\n", "u\t3p\tx\tman1/p.1\n"))],
    "Only the first 4,096 bytes of that text count.": [page((f".TH U 1\n.SH NAME\nu \\- {'x' * 5000}\n", f"u\t1\t{'x' * 4092}\tman1/p.1\n"))],
    "A page without such a section, without the dash or without a name has no entry.": [
        page((text, "")) for text in ("", ".TH U 1\n.SH X\nu \\- x\n", ".TH U 1\n.SH NAME\nu\n", ".TH U 1\n.SH NAME\n\\- x\n")
    ],
    "A file that begins as gzip 1, xz 1, bzip2 1 or zstd 1 writes it is a compressed page, and is passed over.": [
        Case(["makewhatis", "empty"], [notes(PASSED_OVER)], before=COMPRESSED, after={EMPTY: NONE}),
        Case(["makewhatis", "empty"], before={f"empty/man1/{place}.1": head for place, head in enumerate(NEARLY)}, after={EMPTY: NONE}),
    ],
    "The number of such pages in a directory is reported after its other pages.": [
        Case(
            ["makewhatis", "empty", "missing"],
            [notes(PASSED_OVER.replace("5 compressed pages", "1 compressed page") + LOST_EMPTY.replace("empty", "missing"))],
            6,
            before=ONE_COMPRESSED,
            after={EMPTY: ONE},
        ),
        Case(
            ["makewhatis", "-n", "empty", "."],
            [notes(PASSED_OVER.replace("5 compressed pages", "1 compressed page")), out("t(1) - x\n" + PRINTED)],
            before=ONE_COMPRESSED,
        ),
    ],
    "A new index has the mode of any new file see umask 2 unless the old one is a file of the user who runs": [
        Case(["makewhatis", "."], before={INDEX: Link("quiet.1")}, after={INDEX: WHOLE}),
        Case(["makewhatis", "."], before={INDEX: Link("old"), "old": File(OLD, 0o640)}, after={INDEX: WHOLE}),
        Case(["makewhatis", "."], before={INDEX: File(OLD, 0o666, is_ours=False)}, after={INDEX: WHOLE}),
    ],
    "then it has the read, write and execute permissions of the old one.": [
        *(Case(["makewhatis", "."], before={INDEX: File(OLD, mode)}, after={INDEX: File(WHOLE, mode)}) for mode in (0o640, 0o600, 0o777)),
    ],
    "It never has a setuid, setgid or sticky bit.": [
        Case(["makewhatis", "."], before={INDEX: File(OLD, 0o7755)}, after={INDEX: File(WHOLE, 0o755)}),
        Case(["makewhatis", "."], before={INDEX: File(OLD, 0o6777, is_ours=False)}, after={INDEX: File(WHOLE, MODE)}),
    ],
    "Whatever already has the name of the unfinished index, such as a file that a killed run left or a link, is removed first": [
        Case(["makewhatis", "."], before={INDEX: OLD, "whatis.tmp": Link("quiet.1")}, after={INDEX: WHOLE, "whatis.tmp": None}),
        Case(["makewhatis", "."], before={INDEX: OLD, "whatis.tmp": Pipe}, after={INDEX: WHOLE, "whatis.tmp": None}),
        Case(["makewhatis", "."], before={INDEX: OLD, "whatis.tmp": "half"}, after={INDEX: WHOLE, "whatis.tmp": None}),
    ],
    "A page that cannot be read is reported, and the index has the others": [
        Case(["makewhatis", "."], [notes(LOST_CAT)], 6, before={INDEX: OLD, "man1/cat.1": Link("missing")}, after={INDEX: WITHOUT_CAT}),
        Case(["makewhatis", "."], [notes(LOST_CAT)], 6, before={INDEX: OLD, "man1/cat.1": Locked}, after={INDEX: WITHOUT_CAT}),
        Case(
            ["makewhatis", "."],
            [notes(LOST_CAT.replace("open", "read"))],
            6,
            before={INDEX: OLD, "man1/cat.1": Link("/proc/self/mem")},
            after={INDEX: WITHOUT_CAT},
        ),
    ],
    "where an index cannot be written, the old one stays.": [
        Case(["makewhatis", ".", "."], [notes(LOST_INDEX)], 6, before={INDEX: OLD, "whatis.tmp": Folder}),
        Case(["makewhatis", ".", "."], [notes(LOST_INDEX)], 6, before={INDEX: Folder}),
        *(Case(["makewhatis", ".", "."], [notes(LOST_INDEX)], 6, before={INDEX: OLD}, most=most) for most in range(0, len(WHOLE), 8)),
    ],
    "The old one also stays where a folder is there and cannot be listed, as a link to a folder that is not mounted or what is no folder at all": [
        *(
            Case(["makewhatis", ".", "empty"], [notes(LOST_FOLDER + LOST_INDEX)], 6, before={INDEX: OLD, "man1": what})
            for what in (Link("missing"), Link("quiet.1"), "x", Pipe)
        ),
        Case(["makewhatis", "empty"], [notes("mandoc: empty/man1: cannot open\n" + LOST_EMPTY)], 6, before={"empty/man1": Link("missing")}),
        Case(["makewhatis", ".", "empty"], [notes(LOST_FOLDER + LOST_INDEX)], 6, before={INDEX: OLD, "man1": Link("man1")}),
        Case(["makewhatis", "."], [notes("mandoc: ./man8: cannot open\n" + LOST_INDEX)], 6, before={INDEX: OLD, "man8": Locked}),
        Case(["makewhatis", "."], [notes("mandoc: ./man8: cannot open\n" + LOST_INDEX)], 6, before={"man8": Locked}),
    ],
    "or where memory or another open file is refused": [
        # (three standard streams, three that are held, and the index)
        Case(["makewhatis", "."], [notes(LOST_FOLDER + LOST_INDEX)], 6, before={INDEX: OLD}, numbers=7),
    ],
    # OPTIONS
    "No index is written: each entry is printed, as mandoc-whatis 1 prints it.": [
        Case(["makewhatis", "-n", "."], [out(PRINTED)], before={INDEX: OLD}),
        Case(["makewhatis", "-n", "empty", "."], [out(PRINTED)], before={INDEX: OLD}),
        Case(["makewhatis", "-n", "link"], [out(PRINTED)], before={"link": Link(".")}),
        Case(
            ["makewhatis", "-n", "."],
            [notes(LOST_CAT), out(PRINTED_WITHOUT_CAT)],
            6,
            before={"man1/cat.1": Link("missing")},
        ),
    ],
    "After a fault that would keep an old index, the next page or folder follows.": [
        Case(["makewhatis", "-n", "."], [notes(LOST_FOLDER), out("fsck(8) - check disks\n")], 6, before={"man1": Link("man1")}),
    ],
    # EXIT STATUS
    "Each page that is not compressed was read, and each index was written.": [
        Case(["makewhatis", "empty", "."], [notes(PASSED_OVER)], before=COMPRESSED, after={EMPTY: NONE, INDEX: WHOLE}),
    ],
    "The command line was refused: for example, no directory is named, or one has an empty name.": [
        Case(["makewhatis", *words], [notes(BAD_COMMAND)], 5, before={INDEX: OLD}) for words in ([], [""], [".", ""], ["-n"], ["-w", "."])
    ],
    "A page or a folder could not be read, an index could not be written, there was not enough memory, or with -n a directory is missing.": [
        Case(["makewhatis", "."], status=6, before={INDEX: OLD, "man1/cat.1": Link("missing")}, after={INDEX: WITHOUT_CAT}, full="notes"),
        Case(["makewhatis", ".", "empty"], [notes(LOST_CAT)], 6, before={"man1/cat.1": Link("missing")}, after={INDEX: WITHOUT_CAT, EMPTY: NONE}),
    ],
    # DIAGNOSTICS
    "takes the place of a character in the name of a file that mandoc 1 does not show": [
        Case(
            ["makewhatis", HIDDEN],
            [notes(f"mandoc: {SHOWN}/man1/{SHOWN}: cannot open\nmandoc: {SHOWN}/man1/\u202f: cannot open\n")],
            6,
            before={f"{HIDDEN}/man1/a\u202e\u2028\U000e0041\u2066": Link("missing"), f"{HIDDEN}/man1/\u202f": Link("missing")},
            after={f"{HIDDEN}/whatis.idx": NONE},
        ),
        Case(["makewhatis", "-n", HIDDEN], [notes(f"mandoc: {SHOWN}: cannot open\n")], 6),
        Case(["makewhatis", HIDDEN], [notes(f"mandoc: {SHOWN}/whatis.idx: cannot write\n")], 6),
    ],
    "With -n also a directory that is missing, or is none; the next one follows.": [
        Case(["makewhatis", "-n", "missing", "."], [notes("mandoc: missing: cannot open\n"), out(PRINTED)], 6),
        Case(["makewhatis", "-n", "quiet.1", "."], [notes("mandoc: quiet.1: cannot open\n"), out(PRINTED)], 6),
    ],
    "dev null is opened before an index is written, so that the file of the index never has the file descriptor of a closed standard stream": [
        Case(["makewhatis", "."], status=6, before={INDEX: OLD, "man1/cat.1": Link("missing")}, after={INDEX: WITHOUT_CAT}, closed="notes"),
        Case(["makewhatis", "."], status=6, before={"man1/cat.1": Link("missing")}, after={INDEX: WITHOUT_CAT}, closed="out notes"),
        Case(["makewhatis", "."], before={INDEX: OLD}, after={INDEX: WHOLE}, closed="out"),
    ],
    "where it cannot be opened, nothing is written.": [
        Case(["makewhatis", "."], [notes("mandoc: /dev/null: cannot open\n")], 6, before={INDEX: OLD}, numbers=5),
    ],
    "An index, or with -n the entries of a directory, could not be written.": [
        Case(["makewhatis", "-n", ".", "."], [notes("mandoc: .: cannot write\n")], 6, full="out"),
        Case(["makewhatis", "missing", "empty"], [notes("mandoc: missing/whatis.idx: cannot write\n")], 6),
    ],
    "This is also what happens when the reader of the entries quits": [
        Case(["makewhatis", "-n", ".", "."], [notes("mandoc: .: cannot write\n")], 6, quits="out"),
    ],
    "the system ends the program by a signal instead; the unfinished index stays until the next run, and the old one is whole.": [
        Case(["makewhatis", "."], status=-25, before={INDEX: OLD}, after={"whatis.tmp": ""}, most=0, faults=False),
    ],
    # CAVEATS
    "The stack has to have 512 kilobytes": [Case(["makewhatis", "."], before={INDEX: OLD}, after={INDEX: WHOLE}, stack=STACK)],
}
