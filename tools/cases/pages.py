"""The cases of mandoc(1), by what its manual says."""
from cases.parts import BAD_COMMAND, BLANK, DEEP, FOOT, HEAD, INDEX, LONG, MDOC, OLD, QUIET, STACK, TEXT, TWICE, WARNING, Case, Folder, Link, Locked, notes, out

# Pages with a character of two bytes, which are two characters of Latin-1, with a byte that begins none, and with the byte order mark.
ACCENT = ".TH T 1 2020-01-01 S\n.SH NAME\n\u00e9 \\- x\n"
LATIN = b".TH T 1 2020-01-01 S\n.SH NAME\n\xe9 \\- x\n"
MARKED = f"\ufeff{ACCENT}"
ACCENT_TEXT = "       \u00e9 - x\n"
BAD_CHARACTERS = "".join(f"mandoc: accent.1:3:{column}: ERROR: skipping bad character: {byte}\n" for column, byte in ((1, "0xc3"), (2, "0xa9")))
# A page with a message of each of three levels, one with a message of the greatest, and one with one of the least that there is.
WORST = ".TH T 1 2020-01-01 S\n.SH NAME\nt \\- x \n\\*(zz\n.ZZ\n"
OF_STYLE = "mandoc: worst.1:3:7: STYLE: whitespace at end of input line\n"
OF_WARNING = 'mandoc: worst.1:4:1: WARNING: undefined string, using "": zz\n'
OF_ERROR = "mandoc: worst.1:5:2: ERROR: skipping unknown macro: ZZ\n"
UNSUPPORTED = f"{QUIET}.so man1/other.1\n"
OF_UNSUPP = "mandoc: so.1:4:2: UNSUPP: unsupported roff request: so\n"
BLANK_AT_END = QUIET.replace("x\n", "x \n")
# Two pages, of which the first defines what the second uses; one of which nothing but the header is in Latin.
DEFINES, USES = f".ds zz y\n.de ZZ\ny\n..\n{QUIET}", f"{QUIET}\\*(zz\n.ZZ\n"
OF_USES = 'mandoc: uses.1:4:1: WARNING: undefined string, using "": zz\nmandoc: uses.1:5:2: ERROR: skipping unknown macro: ZZ\n'
# A page that says that it has tables, and many rows, as they are written and as they come.
TABLE = f"'\\\" t\n{QUIET}"
ROWS_SOURCE, ROWS = ".br\ny\n" * 1_000, "       y\n" * 1_000
# Pages without a source, in either language.
SOURCELESS, MDOC_SOURCELESS = QUIET.replace(" S\n", "\n"), MDOC.replace(".Os S", ".Os")
# Macros of either language, on a page of the other one.
OF_MAN = "".join(f"mandoc: m.1:{line}:2: ERROR: skipping unknown macro: {name}\n" for line, name in enumerate("Dd Dt Os Sh Nm Nd".split(), 1))
OF_DOC = "".join(f"mandoc: quiet.1:{line}:2: ERROR: skipping unknown macro: {name}\n" for line, name in ((1, "TH"), (2, "SH")))

NARROW = f"T(1){' ' * 14}General Commands Manual{' ' * 15}T(1)\n\nN\bNA\bAM\bME\bE\n"
LOST_PAGE = "mandoc: quiet.1: cannot write\n"
# A name of a file with each kind of character that is not shown, and as it is shown.
HIDDEN = "a\n\x1b\x7f\u009b-\u061c\u202a\u202e-\u2066\u2069-\u2028\u2029-\U000e0000\U000e007f-\u061b\u2027\u202f\u2065\u206a\U000e0080.1"
SHOWN = "a????-???-??-??-??-\u061b\u2027\u202f\u2065\u206a\U000e0080.1"


CASES = {
    # DESCRIPTION
    "The first form reads manual pages that are written in man 7 or mdoc 7 and prints them as text, or reports what is wrong with them": [
        Case(["quiet.1"], [out(HEAD + TEXT + FOOT)]),
        Case(["-Tlint", "blank.1"], [out("mandoc: blank.1:4:1: " + WARNING)], 2),
    ],
    "Where no file is named, one page is read from the standard input.": [
        Case([], [out(HEAD + TEXT + FOOT)], input=QUIET),
        Case(["-Tlint"], [out("mandoc: <stdin>:4:1: " + WARNING)], 2, input=BLANK),
        Case(["quiet.1"], [out(HEAD + TEXT + FOOT)], input=BLANK, unread=True),
        Case(["missing.1"], [notes("mandoc: missing.1: cannot open\n")], 6, input=BLANK, unread=True),
    ],
    "A file - is a file of that name.": [
        Case(["-"], [notes("mandoc: -: cannot open\n")], 6, input=QUIET, unread=True),
        Case(["-"], [out(HEAD + TEXT + FOOT)], input=BLANK, before={"-": QUIET}, unread=True),
    ],
    "Several files are printed one after the other, each from its own start: nothing that one page defines is known to the next.": [
        Case(["blank.1", "quiet.1"], [out(HEAD + TEXT + "\n       y\n" + FOOT + HEAD + TEXT + FOOT)]),
        Case(["-Tlint", "d.1", "uses.1"], [out(OF_USES)], 3, before={"d.1": DEFINES, "uses.1": USES}),
        Case(["quiet.1"] * 200, [out((HEAD + TEXT + FOOT) * 200)]),
        Case([LONG, "rows.1"], [out(HEAD + TEXT + FOOT + HEAD + TEXT + ROWS + FOOT)], before={LONG: TABLE, "rows.1": QUIET + ROWS_SOURCE}),
    ],
    "The word that names such a form has to be the first one.": [
        Case(["-Tascii", "makewhatis", "."], [notes("mandoc: makewhatis: cannot open\nmandoc: .: cannot read\n")], 6),
        Case(["quiet.1", "whatis"], [out(HEAD + TEXT + FOOT), notes("mandoc: whatis: cannot open\n")], 6),
    ],
    # OPTIONS
    "An option's value may follow it in the next word, in the same word, or after an equals sign: -T lint, -Tlint and -T=lint mean the same.": [
        Case(words + ["blank.1"], [out("mandoc: blank.1:4:1: " + WARNING)], 2) for words in (["-T", "lint"], ["-Tlint"], ["-T=lint"])
    ],
    "Each option is given at most once, and options may be before, between and after the files.": [
        Case(["-Tlint", "blank.1", "-Tlint"], [notes(BAD_COMMAND)], 5),
        Case(["blank.1", "-Tlint", "quiet.1", "-W", "error"]),
    ],
    "A value never begins with a dash.": [Case(["-O", "-Tlint", "blank.1"], [notes(BAD_COMMAND)], 5)],
    "The word -- ends the options: each word after it is a file.": [
        Case(["--", "-Tlint"], [notes("mandoc: -Tlint: cannot open\n")], 6),
        Case(["--", "-page.1"], [out(HEAD + TEXT + FOOT)], before={"-page.1": QUIET}),
    ],
    "There are no long options, and none for help or for a version.": [
        Case([word], [notes(BAD_COMMAND)], 5) for word in ("--help", "-h", "--version", "-V", "--output=lint")
    ],
    "The name of the operating system, which is the source in the footer of a page that names none itself": [
        Case(["-I", "os=S", "page.1"], [out(HEAD + TEXT + FOOT)], before={"page.1": SOURCELESS}),
        Case(["-Ios=X", "quiet.1"], [out(HEAD + TEXT + FOOT)]),
        Case(["-Tlint", "-Ios=X", "m.1"], before={"m.1": MDOC_SOURCELESS}),
    ],
    "It has at most 256 bytes, and no control characters but the tab.": [
        Case(["-Ios=" + "x" * 256, "-Tlint", "quiet.1"]),
        Case(["-Ios=" + "x" * 257, "-Tlint", "quiet.1"], [notes(BAD_COMMAND)], 5),
        Case(["-Ios=a\tb", "-Tlint", "quiet.1"]),
        Case(["-Ios=a\x01b", "-Tlint", "quiet.1"], [notes(BAD_COMMAND)], 5),
    ],
    "What the bytes of the pages stand for: us-ascii, iso-8859-1 or utf-8.": [
        Case(["-Kutf-8", "-Tutf8", "accent.1"], [out(HEAD + ACCENT_TEXT + FOOT)], before={"accent.1": ACCENT}),
        Case(["-Kiso-8859-1", "-Tutf8", "accent.1"], [out(HEAD + "       \u00c3\u00a9 - x\n" + FOOT)], before={"accent.1": ACCENT}),
        Case(
            ["-K", "us-ascii", "-Wall", "accent.1"],
            [out(HEAD), notes(BAD_CHARACTERS), out("       ?? - x\n" + FOOT)],
            3,
            before={"accent.1": ACCENT},
        ),
    ],
    "the page is in UTF-8 where a character in UTF-8 begins there, and else in ISO 8859-1.": [
        Case(["-Tutf8", "accent.1"], [out(HEAD + ACCENT_TEXT + FOOT)], before={"accent.1": ACCENT}),
        Case(["-Tutf8", "latin.1"], [out(HEAD + ACCENT_TEXT + FOOT)], before={"latin.1": LATIN}),
    ],
    "A byte order mark at the beginning of a page is ignored with any encoding.": [
        Case(["-Tutf8", "marked.1"], [out(HEAD + ACCENT_TEXT + FOOT)], before={"marked.1": MARKED}),
        Case(["-Kutf-8", "-Tutf8", "marked.1"], [out(HEAD + ACCENT_TEXT + FOOT)], before={"marked.1": MARKED}),
        Case(["-Kiso-8859-1", "marked.1"], [out(HEAD + TEXT + FOOT)], before={"marked.1": f"\ufeff{QUIET}"}),
    ],
    "With andoc, and without this option, each page decides: it is an mdoc page where it begins with the macro Dd.": [
        Case(["-Tlint", "m.1", "quiet.1"], before={"m.1": MDOC}),
        Case(["-mandoc", "-Tlint", "m.1", "quiet.1"], before={"m.1": MDOC}),
        Case(["-man", "-Tlint", "-Werror", "m.1"], [out(OF_MAN)], 3, before={"m.1": MDOC}),
        Case(["-mdoc", "-Tlint", "-Werror", "quiet.1"], [out(OF_DOC)], 3),
    ],
    "The columns of a row, 58 to 300. The default is 78.": [
        Case(["-Owidth=60", "quiet.1"], [out(NARROW + TEXT + f"\nS{' ' * 24}2020-01-01{' ' * 21}T(1)\n")]),
        Case(["-Owidth=78", "quiet.1"], [out(HEAD + TEXT + FOOT)]),
        *(Case(["-O", f"width={width}", "quiet.1"], [notes(BAD_COMMAND)], 5) for width in (57, 301)),
    ],
    "The columns in front of the text of a section, 0 to 20. The default is 5 in mdoc pages and 7 in man pages.": [
        Case(["-Oindent=0", "quiet.1"], [out(HEAD + "t - x\n" + FOOT)]),
        Case(["-Oindent=21", "quiet.1"], [notes(BAD_COMMAND)], 5),
    ],
    "A number has 1 to 9 decimal digits, and each key occurs at most once.": [
        Case(["-Oindent=000000007", "quiet.1"], [out(HEAD + TEXT + FOOT)]),
        *(Case([f"-O{list_}", "quiet.1"], [notes(BAD_COMMAND)], 5) for list_ in ("indent=", "indent=0000000007", "indent=7,indent=7")),
    ],
    "Text in ASCII. A character without a spelling in ASCII is shown as <?>. This is the default.": [
        Case(["-Tascii", "page.1"], [out(HEAD + TEXT + "       e <?>\n" + FOOT)], before={"page.1": f"{QUIET}.br\n\u00e9 \u4e00\n"}),
        Case(["page.1"], [out(HEAD + TEXT + "       e <?>\n" + FOOT)], before={"page.1": f"{QUIET}.br\n\u00e9 \u4e00\n"}),
    ],
    "No text: the messages alone, on the standard output. Where -W is not given, each message is shown.": [
        Case(["-Tlint", "worst.1"], [out(OF_STYLE + OF_WARNING + OF_ERROR)], 3, before={"worst.1": WORST}),
        Case(["-Tlint", "-Werror", "worst.1"], [out(OF_ERROR)], 3, before={"worst.1": WORST}),
        Case(["-Tlint", "blank.1", "quiet.1"], [out("mandoc: blank.1:4:1: " + WARNING)], 2),
    ],
    "In text, a bold character is printed twice with a backspace between, and an italic one follows an underscore and a backspace.": [
        Case(["page.1"], [out(HEAD + TEXT + "       b\bb_\bi\n" + FOOT)], before={"page.1": f"{QUIET}.br\n\\fBb\\fIi\n"}),
    ],
    "Reports what is found at this level and above it, on the standard error": [
        Case(["-Wall", "worst.1"], [out(HEAD), notes(OF_STYLE + OF_WARNING + OF_ERROR), out(TEXT + FOOT)], 3, before={"worst.1": WORST}),
        Case(["-Wwarning", "worst.1"], [out(HEAD), notes(OF_WARNING + OF_ERROR), out(TEXT + FOOT)], 3, before={"worst.1": WORST}),
        Case(["-W", "error", "worst.1"], [out(HEAD), notes(OF_ERROR), out(TEXT + FOOT)], 3, before={"worst.1": WORST}),
        Case(["-Wunsupp", "worst.1"], [out(HEAD + TEXT + FOOT)], before={"worst.1": WORST}),
        Case(["-Wstop", "worst.1"], [notes(BAD_COMMAND)], 5, before={"worst.1": WORST}),
    ],
    "Without this option nothing is reported except under -T lint, and what is not reported does not count for the exit status.": [
        Case(["worst.1"], [out(HEAD + TEXT + FOOT)], before={"worst.1": WORST}),
    ],
    # EXIT STATUS
    "For pages, the worst that happened with any file": [
        Case(["-Tlint", "blank.1", "missing.1", "quiet.1"], [out("mandoc: blank.1:4:1: " + WARNING), notes("mandoc: missing.1: cannot open\n")], 6),
        Case(["-Tlint", "missing.1", "blank.1"], [notes("mandoc: missing.1: cannot open\n"), out("mandoc: blank.1:4:1: " + WARNING)], 6),
    ],
    "Nothing was reported.": [Case(["-Tlint", "quiet.1"])],
    "A message of the level base or style was the worst.": [
        Case(["-Tlint", "page.1"], [out("mandoc: page.1:3:7: STYLE: whitespace at end of input line\n")], 1, before={"page.1": BLANK_AT_END}),
    ],
    "A message of the level warning was the worst.": [Case(["-Tlint", "quiet.1", "blank.1"], [out("mandoc: blank.1:4:1: " + WARNING)], 2)],
    "A message of the level error was the worst.": [Case(["-Tlint", "-Werror", "worst.1"], [out(OF_ERROR)], 3, before={"worst.1": WORST})],
    "A message of the level unsupp was the worst.": [
        Case(["-Tlint", "so.1", "blank.1"], [out(OF_UNSUPP + "mandoc: blank.1:4:1: " + WARNING)], 4, before={"so.1": UNSUPPORTED}),
    ],
    "The command line was refused, and no file was read.": [
        Case(["missing.1", "-Tlint", "-X"], [notes(BAD_COMMAND)], 5),
        Case(["makewhatis", ".", "-X"], [notes(BAD_COMMAND)], 5, before={INDEX: OLD}),
    ],
    # DIAGNOSTICS
    "Lines and columns count from 1, and a column counts bytes.": [
        Case(
            ["-Tlint", "page.1"],
            [out("mandoc: page.1:4:4: WARNING: undefined string, using \"\": zz\n")],
            2,
            before={"page.1": f"{QUIET}\u00e9 \\*(zz\n"},
        ),
    ],
    "The standard input is called <stdin>.": [
        Case(["-Wall"], [out(HEAD + TEXT + "\n"), notes("mandoc: <stdin>:4:1: " + WARNING), out("       y\n" + FOOT)], 2, input=BLANK),
    ],
    "In the name of a file, ? is printed for each control character, for each character that changes the direction of text": [
        Case([HIDDEN], [notes(f"mandoc: {SHOWN}: cannot open\n")], 6),
        Case(["-Tlint", HIDDEN], [out(f"mandoc: {SHOWN}:4:1: {WARNING}")], 2, before={HIDDEN: BLANK}),
        Case(["d\x1b"], [notes("mandoc: d?: cannot read\n")], 6, before={"d\x1b": Folder}),
        Case(["-Tutf8", "\u00e9.1"], [notes("mandoc: \u00e9.1: cannot open\n")], 6),
    ],
    # (the two messages of a page come together between its rows, since rows and messages are put out by block)
    "Messages come in the order of the lines, and within a line from left to right.": [
        Case(
            ["-Wall", "two.1"],
            [out(HEAD + TEXT + "\n       y\n\n"), notes("".join(f"mandoc: two.1:{line}:1: {WARNING}" for line in (4, 6))), out("       z\n" + FOOT)],
            2,
            before={"two.1": TWICE},
        ),
        Case(
            ["-Wall", "blank.1", "quiet.1"],
            [out(HEAD + TEXT + "\n"), notes("mandoc: blank.1:4:1: " + WARNING), out("       y\n" + FOOT + HEAD + TEXT + FOOT)],
            2,
        ),
    ],
    "A detail is cut at 64 bytes.": [
        Case(
            ["-Tlint", "page.1"],
            [out(f"mandoc: page.1:4:2: ERROR: skipping unknown macro: {'Z' * 64}\n")],
            3,
            before={"page.1": f"{QUIET}.{'Z' * 64}\n"},
        ),
    ],
    "In details, characters beyond ASCII are shown as they are, even those that change the direction of text.": [
        Case(
            ["-Tlint", "page.1"],
            [out("mandoc: page.1:4:2: ERROR: skipping unknown macro: \u202e\u00e9\n")],
            3,
            before={"page.1": f"{QUIET}.\u202e\u00e9\n"},
        ),
    ],
    "An option is unknown, occurs twice or lacks its value, a value is not one that the option takes, a measure is out of its bounds": [
        Case([*words, "quiet.1"], [notes(BAD_COMMAND)], 5) for words in (["-x"], ["-Tutf8", "-Tutf8"], ["-Thtml"], ["-Owidth=57"])
    ]
    + [Case(["quiet.1", "-T"], [notes(BAD_COMMAND)], 5)],
    "A command line that names a file by bytes that are not text in UTF-8 is refused as a bad one.": [
        Case(["-Tutf8", b"\xe9.1"], [notes(BAD_COMMAND)], 5, before={"\udce9.1": QUIET}),
    ],
    "The file is missing, or may not be read, or an index is not a regular file. The next file follows.": [
        Case(["missing.1", "quiet.1"], [notes("mandoc: missing.1: cannot open\n"), out(HEAD + TEXT + FOOT)], 6),
        Case([LONG], [notes(f"mandoc: {LONG}: cannot open\n")], 6),
        Case(["missing.1", "quiet.1"], [out(HEAD + TEXT + FOOT)], 6, full="notes"),
        Case(["blank.1", "quiet.1"], [notes("mandoc: blank.1: cannot open\n"), out(HEAD + TEXT + FOOT)], 6, before={"blank.1": Locked}),
    ],
    "Reading failed before the page's end. The next file follows.": [
        Case([".", "quiet.1"], [notes("mandoc: .: cannot read\n"), out(HEAD + TEXT + FOOT)], 6),
        Case(["mem.1", "quiet.1"], [notes("mandoc: mem.1: cannot read\n"), out(HEAD + TEXT + FOOT)], 6, before={"mem.1": Link("/proc/self/mem")}),
    ],
    "The text, the messages, an index or its entries could not be written. No further file is read.": [
        Case(["quiet.1", "quiet.1"], [notes(LOST_PAGE)], 6, full="out"),
        Case(["quiet.1", "quiet.1"], [out(HEAD), notes(LOST_PAGE)], 6, most=len(HEAD)),
        Case(["-Tlint", "blank.1", "quiet.1"], [notes("mandoc: blank.1: cannot write\n")], 6, full="out"),
        Case(["-Wall", "blank.1", "quiet.1"], [out(HEAD + TEXT + "\n")], 6, full="notes"),
        Case(["quiet.1", "quiet.1"], [notes(LOST_PAGE)], 6, closed="out"),
    ],
    "This is also what happens when a pager, or another reader of a pipe, quits before the text ends.": [
        Case(["quiet.1", "quiet.1"], [notes(LOST_PAGE)], 6, quits="out"),
        Case(["-Wall", "blank.1", "quiet.1"], [out(HEAD + TEXT + "\n")], 6, quits="notes"),
    ],
    "Where files are limited in their size ulimit -f the system ends the program by a signal instead.": [
        Case(["quiet.1", "quiet.1"], [out(HEAD)], -25, most=len(HEAD), faults=False),
    ],
    # CAVEATS
    "The stack has to have 512 kilobytes": [Case(["deep.1"], [out(HEAD + TEXT + FOOT)], before={"deep.1": DEEP}, stack=STACK)],
}
