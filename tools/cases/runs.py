"""Runs of the program that are more than a command line over a folder: a page that is typed, two runs at once, and less and less memory."""
import ctypes
import os
import resource
import select
import signal
import socket
import struct
import subprocess
import tempfile
import time

from cases.files import fill, lies, put, size
from cases.parts import FOOT, HEAD, INDEX, LOST_INDEX, OLD, TEXT, WARNING, WHOLE, File

# The page with a warning, line by line as it is typed, and what comes of each line before the next one is asked for; then the input fails.
TYPED = [
    (".TH T 1 2020-01-01 S\n.SH NAME\n", HEAD),
    ("t \\- x\n\n", TEXT + "\nmandoc: <stdin>:4:1: " + WARNING),
    ("y\n", ""),
]
TYPED_FAULT = "mandoc: <stdin>: cannot read\n"

# Pages that an index takes a while to be made of, that index, and the mode of the one of before.
MANY = {f"man1/{number:05}.1": f".TH P 1\n.SH NAME\np{number} \\- x\n" for number in range(20_000)}
MANY_INDEX = "whatis 2\n" + "".join(f"p{number}\t1\tx\tman1/{number:05}.1\n" for number in range(20_000))
MODE = 0o640

# What comes of a page with ample memory, with none for the page, and with none for the command line.
BY_MEMORY = [
    (HEAD + TEXT + FOOT, "", 0),
    ("", "mandoc: quiet.1: out of memory\n", 6),
    ("", "mandoc: out of memory\n", 6),
]

# The bytes of memory that are ample, and how many fewer there are each time.
AMPLE, STEP = 4 << 20, 16 << 10


def read_up_to(pipe, count):
    """Reads so many bytes of what comes within some seconds, or more where more is there."""
    found = b""
    while len(found) < count and select.select([pipe], [], [], 30)[0]:
        more = os.read(pipe, 65_536)
        if not more:
            break
        found += more
    return found.decode()


def wrong_when_typed(program):
    """What is not as it must be where a page is typed."""
    ours, theirs = socket.socketpair()
    # (a byte that is never read: with it, the end of the connection is a failure for the reader)
    theirs.send(b"-")
    how = {"stdin": theirs, "stdout": subprocess.PIPE, "stderr": subprocess.STDOUT}
    with subprocess.Popen([program, "-Wall"], **how) as started:
        theirs.close()
        for lines, wanted in TYPED:
            ours.sendall(lines.encode())
            found = read_up_to(started.stdout.fileno(), len(wanted.encode()))
            if found != wanted:
                yield f"after {lines!r}: {found!r}, and not {wanted!r}"
        ours.close()
        found = read_up_to(started.stdout.fileno(), 65_536)
        if found != TYPED_FAULT:
            yield f"at the end: {found!r}, and not {TYPED_FAULT!r}"
        if started.wait(60) != 6:
            yield f"status {started.returncode}, and not 6"


class Runs:
    """Runs of `makewhatis` over a folder of many pages."""

    def __init__(self, program, room):
        self.program, self.room = program, room
        self.index, self.unfinished = f"{room}/{INDEX}", f"{room}/whatis.tmp"
        for name, text in MANY.items():
            put(f"{room}/{name}", text)

    def started(self):
        """A run that has begun."""
        how = {"cwd": self.room, "stdin": subprocess.DEVNULL, "stdout": subprocess.PIPE, "stderr": subprocess.STDOUT}
        return subprocess.Popen([self.program, "makewhatis", "."], **how)

    def is_stopped(self, run):
        """Stops a run once it has written some of its index, and answers whether it has not ended before."""
        while not size(self.unfinished):
            if run.poll() is not None:
                return False
            time.sleep(0.001)
        os.kill(run.pid, signal.SIGSTOP)
        return os.waitid(os.P_PID, run.pid, os.WSTOPPED | os.WEXITED | os.WNOWAIT).si_code == os.CLD_STOPPED

    def stopped(self):
        """A run that has written some of its index, and is stopped there; the old index is there."""
        for _ in range(20):
            self.set_old()
            run = self.started()
            if self.is_stopped(run):
                return run
            run.communicate()
        raise TimeoutError("each run ended before it could be stopped")

    def set_old(self):
        put(self.index, File(OLD, MODE))

    def wrong(self, when, run, ends, index, unfinished):
        """What is not as it must be after a run: what it says and its status are among these, and these files are left."""
        said, _ = run.communicate(timeout=60)
        if (said.decode(), run.returncode) not in ends:
            yield f"{when}: {said!r}, status {run.returncode}, and not one of {ends}"
        if lies(self.index) != File(index.encode(), MODE):
            yield f"{when}: another index or mode"
        if (lies(self.unfinished) or File(None)).text != unfinished:
            yield f"{when}: another whatis.tmp"


# What a run says and its status, where it writes its index and where it can't.
WRITTEN, LOST = ("", 0), (LOST_INDEX, 6)


def wrong_of_two_runs(program):
    """What is not as it must be where two runs are over one folder."""
    with tempfile.TemporaryDirectory(prefix="cases-") as room:
        runs = Runs(program, room)
        first = runs.stopped()
        written = lies(runs.unfinished).text
        yield from runs.wrong("beside another run", runs.started(), [LOST], OLD, written)
        first.kill()
        yield from runs.wrong("killed", first, [("", -signal.SIGKILL)], OLD, written)
        yield from runs.wrong("after a run that was killed", runs.started(), [WRITTEN], MANY_INDEX, None)
        first = runs.stopped()
        # (as who knows nothing of locks does)
        put(runs.unfinished, "half")
        first.send_signal(signal.SIGCONT)
        yield from runs.wrong("with another's file", first, [LOST], OLD, b"half")
        for _ in range(3):
            runs.set_old()
            both = [runs.started(), runs.started()]
            for run in both:
                run.wait(60)
            for run in both:
                yield from runs.wrong("at once", run, [WRITTEN, LOST], MANY_INDEX, None)


# What the system says of the files in a folder (inotify(7)): one is opened, or closed after it was read; one is made, or takes its name.
OPENED, CLOSED, MADE, NAMED = 0x20, 0x10, 0x100, 0x80


def seen_in(folder, run):
    """What is seen in a folder while something is run: each name with what came of it, in turn."""
    library = ctypes.CDLL(None, use_errno=True)
    watch = library.inotify_init1(os.O_NONBLOCK)
    library.inotify_add_watch(watch, folder.encode(), OPENED | CLOSED | MADE | NAMED)
    run()
    seen, place = os.read(watch, 65_536), 0
    os.close(watch)
    while place < len(seen):
        _, mask, _, size = struct.unpack_from("iIII", seen, place)
        yield seen[place + 16 : place + 16 + size].rstrip(b"\0").decode(), mask
        place += 16 + size


# Command lines, the folder that is watched, and what is to come of some files in it.
ONCE = [(name, mask) for name in ("quiet.1", "blank.1") for mask in (OPENED, CLOSED)]
WATCHED = [
    (["quiet.1", "blank.1"], ".", ["quiet.1", "blank.1"], ONCE),
    (["whatis", "old"], ".", [INDEX], [(INDEX, OPENED), (INDEX, CLOSED)]),
    (["makewhatis", "."], "man8", ["fsck.8"], [("fsck.8", OPENED), ("fsck.8", CLOSED)]),
    (["makewhatis", "."], ".", [INDEX, "whatis.tmp"], [("whatis.tmp", MADE), ("whatis.tmp", OPENED), (INDEX, NAMED)]),
]


def wrong_of_opening(program):
    """What is not as it must be where files are opened: each page and each index is opened once, and an index is made once, and takes its name once."""
    for words, folder, names, wanted in WATCHED:
        with tempfile.TemporaryDirectory(prefix="cases-") as top:
            room = f"{top}/room"
            fill(room, {INDEX: OLD})
            how = {"cwd": room, "stdin": subprocess.DEVNULL, "stdout": subprocess.DEVNULL, "stderr": subprocess.DEVNULL, "timeout": 60}
            seen = seen_in(f"{room}/{folder}", lambda: subprocess.run([program, *words], **how))
            found = [(name, mask) for name, mask in seen if name in names]
            if found != wanted:
                yield f"{words}: {found}, and not {wanted}"


def given(program, words, room, most):
    """What a run prints, and its status, where it has so many bytes of memory beside its stack."""

    def prepare():
        resource.setrlimit(resource.RLIMIT_DATA, (most, most))

    how = {"cwd": room, "stdin": subprocess.DEVNULL, "stdout": subprocess.PIPE, "stderr": subprocess.PIPE, "timeout": 60}
    ran = subprocess.run([program, *words], preexec_fn=prepare, **how)
    return ran.stdout.decode(errors="replace"), ran.stderr.decode(errors="replace"), ran.returncode


def is_static(program):
    """Whether the C library is in the program itself. It asks for memory before the program's own first call does, and for more."""
    with open(program, "rb") as file:
        return b"/ld-linux" not in file.read(4096)


def can_start(program, room, most):
    """Whether the program can be started with so many bytes of memory: then it says that there is no such option, or has no memory for that."""
    return given(program, ["--none"], room, most)[2] in (5, 6)


def wrong_without_memory(program):
    """What is not as it must be where memory is refused. With fewer bytes each time a run comes to each of `BY_MEMORY` in turn, and to nothing else, down
    to where the program can't be started; a static one can't be started where the last of them would come."""
    expected, seen = BY_MEMORY[:-1] if is_static(program) else BY_MEMORY, []
    with tempfile.TemporaryDirectory(prefix="cases-") as top:
        room = f"{top}/room"
        fill(room, {})
        for most in range(AMPLE, 0, -STEP):
            found = given(program, ["quiet.1"], room, most)
            if found not in expected and not can_start(program, room, most):
                break
            if found not in expected:
                yield f"with {most} bytes of memory: {found!r}"
                return
            if found not in seen:
                seen.append(found)
    if seen != expected:
        yield f"as memory is refused: {seen!r}, and not {expected!r}"


def wrong_index_without_memory(program):
    """What is not as it must be where memory is refused to a run that makes an index: that one is whole or as it was, and nothing else is left."""
    with tempfile.TemporaryDirectory(prefix="cases-") as top:
        room, ends = f"{top}/room", set()
        fill(room, {INDEX: OLD})
        for most in range(AMPLE, 0, -STEP):
            put(f"{room}/{INDEX}", OLD)
            said, status = given(program, ["makewhatis", "."], room, most)[1:]
            if status not in (0, 6) and not can_start(program, room, most):
                break
            index = lies(f"{room}/{INDEX}").text.decode()
            ends.add((status, index))
            if (status, index) not in ((0, WHOLE), (6, OLD)) or (status == 6) != ("out of memory" in said) or lies(f"{room}/whatis.tmp"):
                yield f"with {most} bytes of memory: status {status}, {said!r}, {index!r}"
                return
    if len(ends) != 2:
        yield f"as memory is refused: {ends}"
