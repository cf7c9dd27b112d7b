"""What `rt ci` tells, line by line: what it proved, refused and ran, and what is a failure here though its status is 0.

Such are an edit that can't be made or whose text the prover can't read (`BAD EDIT`), one that is refused only by a limit of the prover, which gives no
verdict, or only because a proof names what it took away, which says nothing of a contract, one that nothing is told of, and a program that one of the two
compilers did not build.
"""
import re
import subprocess

# The compilers that build each program, by what is told of a run.
COMPILERS = {"": "LLVM", " (built by Rattle's own compiler)": "Rattle's own compiler"}

CRATE = re.compile(r"rt: (\w+)(?:: its tests are)? (proved$|NOT PROVED|is kept: )")
EDIT = re.compile(r"rt: (?:must-fail )?(\S+): ((?:refused, as it must be|BAD EDIT|NOT TRIED|NOT REFUSED).*)")
# What is told of an edit, by how it begins. (An answer to a goal that is gone names what the edit took away, too.)
CLAUSE = "refused by a clause"
KINDS = {
    "refused only by a name in a proof": r"refused, as it must be(?: \(only because a proof file names|: \S+: error: `[\w-]+`: `goal\.[^`]+`: module `)",
    CLAUSE: r"refused, as it must be(?:$|: )",
    "refused only by a limit": r"refused, as it must be \(",
    "not refused": "NOT REFUSED",
    "not tried": "NOT TRIED",
    "bad": "BAD EDIT",
}
RAN = re.compile(r"rt: (\w+) ran( \(built by Rattle's own compiler\))?, and wrote what its file stdout has$")
TESTED = re.compile(r"test result: \w+\. (\d+) passed; (\d+) failed")
BEGUN = re.compile(r"== (\w+)")
NOTE = re.compile(r"rt: note: (Rattle's own compiler did not compile this program, .*)")


def kind_of(said):
    """The kind of what was said of an edit."""
    return next(kind for kind, begins in KINDS.items() if re.match(begins, said))


class Verdicts:
    """What was told so far: crates that are proved, what was said of each edit, tests that passed, each beside those that were tried; and the programs that
    ran, each with its compiler."""

    def __init__(self):
        self.crates, self.unproved, self.said = set(), set(), {}
        self.tests, self.failed_tests, self.ran, self.notes, self.begun = 0, 0, set(), {}, ""

    @property
    def proved(self):
        return self.crates - self.unproved

    def hear(self, line):
        """Takes a line."""
        if found := EDIT.match(line):
            self.said[found[1]] = found[2]
        elif found := CRATE.match(line):
            self.crates.add(found[1])
            self.unproved |= {found[1]} if found[2] == "NOT PROVED" else set()
        elif found := RAN.match(line):
            self.ran.add((found[1], COMPILERS[found[2] or ""]))
        elif found := TESTED.match(line):
            self.tests, self.failed_tests = self.tests + int(found[1]), self.failed_tests + int(found[2])
        elif found := BEGUN.match(line):
            self.begun = found[1]
        elif found := NOTE.match(line):
            self.notes[self.begun] = found[1]

    def kinds(self):
        """The kind of what was said of each edit."""
        return {edit: kind_of(said) for edit, said in self.said.items()}

    def refused(self):
        """How many edits a clause refused."""
        return list(self.kinds().values()).count(CLAUSE)

    def wrong_edits(self, edits):
        """What is wrong with edits of proved crates, each by its crate and file, though it fails nothing in `rt ci`."""
        wrong = [f"{edit}: {self.said[edit]}" for edit, kind in self.kinds().items() if kind not in (CLAUSE, "not refused", "not tried")]
        return wrong + [f"{edit}: NOT TRIED: nothing is told of it" for edit in edits if edit.split("/")[0] in self.proved and edit not in self.said]

    def missing_builds(self, programs):
        """The proved programs that one of the compilers did not build, or that it built and that did not run as they must."""
        for program in sorted(self.proved & set(programs)):
            for compiler in COMPILERS.values():
                if (program, compiler) not in self.ran:
                    yield f"{program}: no run of what {compiler} builds. {self.notes.get(program, '')}".rstrip()


def run(words, folder, hear):
    """Runs a command, shows what it prints but for a last line 'N passed, M failed', has `hear` take each line, and answers the two numbers. A status
    that is not 0 is at least one failure."""
    last = ""
    with subprocess.Popen(words, cwd=folder, stdout=subprocess.PIPE, text=True, errors="replace") as ran:
        for line in ran.stdout:
            print(last, end="", flush=True)
            last = line
            hear(line.rstrip("\n"))
    found = re.fullmatch(r"(\d+) passed, (\d+) failed\n?", last)
    if not found:
        print(last, end="", flush=True)
        return 0, 1
    return int(found[1]), max(int(found[2]), int(ran.returncode != 0))
