"""What the cases of the program are made of: a command line, the files that it finds, and what it comes to."""
from dataclasses import dataclass, field

# The mode of a file that a run makes, under the umask that the cases have.
MODE, UMASK = 0o644, 0o022


class Folder:
    """A folder in the place of a file, with another one in it, so that no file takes its name."""


class Pipe:
    """A named pipe in the place of a file."""


class Locked:
    """What lies there, for nobody to read, write or list."""


@dataclass(frozen=True)
class Link:
    """A link in the place of a file."""

    to: str


@dataclass(frozen=True)
class File:
    """A file that has another mode, or is another user's."""

    text: str
    mode: int = MODE
    is_ours: bool = True


@dataclass(frozen=True)
class Part:
    """What one of the streams takes at a time."""

    stream: str
    text: str


def out(text):
    return Part("out", text)


def notes(text):
    return Part("notes", text)


@dataclass
class Case:
    """A command line, and what it comes to: what the streams take in turn, and the status."""

    words: list
    printed_parts: list = field(default_factory=list)
    status: int = 0
    # What lies in the folder beside FILES or in place of one, by name, and what else lies there afterwards; None: nothing.
    before: dict = field(default_factory=dict)
    after: dict = field(default_factory=dict)
    # Which stream takes nothing, whose reader quits, and which are closed; what the standard input has.
    full: str = None
    quits: str = None
    closed: str = ""
    input: str = ""
    # Whether the standard input is left as it was.
    unread: bool = False
    # How many bytes a file can have, and whether a write past that is a fault and no signal; how many files can be open; how many bytes of
    # memory there are beside the stack, and of stack.
    most: int = None
    faults: bool = True
    numbers: int = None
    memory: int = None
    stack: int = None

    def text_of(self, stream):
        return "".join(part.text for part in self.printed_parts if part.stream == stream)

    def is_whole(self):
        """Whether both streams take all that is printed."""
        return not (self.full or self.quits or self.closed or self.most is not None)


# A page without a message, one with a warning, and one with two.
QUIET = ".TH T 1 2020-01-01 S\n.SH NAME\nt \\- x\n"
BLANK = ".TH T 1 2020-01-01 S\n.SH NAME\nt \\- x\n\ny\n"
TWICE = ".TH T 1 2020-01-01 S\n.SH NAME\nt \\- x\n\ny\n\nz\n"
# The quiet page in mdoc(7).
MDOC = ".Dd 2020-01-01\n.Dt T 1\n.Os S\n.Sh NAME\n.Nm t\n.Nd x\n"

# The rows of a page down to its section's header, those of the quiet page's text, and those of their footer.
HEAD = "T(1)                       General Commands Manual                        T(1)\n\nN\bNA\bAM\bME\bE\n"
TEXT = "       t - x\n"
FOOT = "\nS                                 2020-01-01                              T(1)\n"

WARNING = "WARNING: blank line in fill mode, using .sp\n"

# Pages to be formatted, and pages in folders: the name of one can't stand in an index, one has no record, and one isn't where pages are.
FILES = {
    "quiet.1": QUIET,
    "blank.1": BLANK,
    "man1/ls.1": ".TH LS 1p\n.SH NAME\nls, dir \\- list files\n",
    "man1/Zed.1": ".TH ZED 1\n.SH NAME\nzed \\- last\n",
    "man1/cat.1": ".Dd d\n.Dt CAT 1\n.Os\n.Sh NAME\n.Nm cat\n.Nd print files\n",
    "man1/none.1": ".TH NONE 1\n.SH NAME\nnone\n",
    "man1/a\tb.1": ".TH B 1\n.SH NAME\nb \\- blank\n",
    "man1/sub.1/t.1": ".TH T 1\n.SH NAME\nt \\- deep\n",
    "man8/fsck.8": ".TH FSCK 8\n.SH NAME\nfsck \\- check disks\n",
    "man10/x.1": ".TH X 1\n.SH NAME\nx \\- far\n",
}
FOLDERS = ["empty"]

# An index of before, and the one of all pages.
INDEX, EMPTY = "whatis.idx", "empty/whatis.idx"
OLD = "whatis 2\nold\t1\tof before\tman1/old.1\n"
ZED, CAT, LS = "zed\t1\tlast\tman1/Zed.1\n", "cat\t1\tprint files\tman1/cat.1\n", "ls, dir\t1p\tlist files\tman1/ls.1\n"
FSCK = "fsck\t8\tcheck disks\tman8/fsck.8\n"
WHOLE = f"whatis 2\n{ZED}{CAT}{LS}{FSCK}"

# The bytes of stack that every page has enough of, and a page that needs most of them: a long condition of widths that have no end.
STACK = 512 << 10
DEEP = QUIET + ".if " + "".join(f"\\w{chr(0x4E00 + number)}" for number in range(900)) + "\n"

LOST_INDEX = "mandoc: ./whatis.idx: cannot write\n"
# A name of a file, longer than most are.
LONG = "x" * 200
BAD_COMMAND = "mandoc: bad command line\n"
