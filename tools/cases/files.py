"""The folder of a case: what is put there, and what lies there afterwards."""
import os
import stat

from cases.parts import FILES, FOLDERS, File, Folder, Link, Locked, Pipe


class LeftOut(Exception):
    """A case that can't be run here, and for want of what."""


def put(path, what):
    """Puts a file, a folder or a link in the place of what lies there."""
    if what is Locked:
        os.chmod(path, 0)
        return
    if os.path.isdir(path) and not os.path.islink(path):
        os.rename(path, f"{path}.aside")
    elif os.path.lexists(path):
        os.remove(path)
    os.makedirs(os.path.dirname(path), exist_ok=True)
    if what is Folder:
        os.makedirs(f"{path}/inside")
    elif what is Pipe:
        os.mkfifo(path)
    elif isinstance(what, Link):
        os.symlink(what.to, path)
    else:
        put_file(path, file_of(what))


def file_of(what):
    """A file that lies somewhere, or is to lie there."""
    return what if isinstance(what, File) else File(what)


def bytes_of(text):
    return text if isinstance(text, bytes) else text.encode()


def put_file(path, file):
    with open(path, "wb") as opened:
        opened.write(bytes_of(file.text))
    if not file.is_ours:
        if os.geteuid() != 0:
            raise LeftOut("another user's file")
        os.chown(path, 65_534, 65_534)
    # (after the owner, since the bits of a user's program are lost with that)
    os.chmod(path, file.mode)


def lies(path):
    """What lies there, as `put` takes it; a file's text where it is one that a run makes."""
    try:
        found = os.lstat(path)
    except FileNotFoundError:
        return None
    if stat.S_ISLNK(found.st_mode):
        return Link(os.readlink(path))
    if not stat.S_ISREG(found.st_mode):
        return Folder if stat.S_ISDIR(found.st_mode) else Pipe
    mode = stat.S_IMODE(found.st_mode)
    # (one that nobody may read is read by root alone)
    if not os.access(path, os.R_OK):
        return File(None, mode, found.st_uid == os.geteuid())
    with open(path, "rb") as file:
        return File(file.read(), mode, found.st_uid == os.geteuid())


def all_that_lies(room):
    """Whatever lies in a folder and below, by its name."""
    names = [os.path.relpath(f"{folder}/{name}", room) for folder, folders, files in os.walk(room) for name in [*folders, *files]]
    return {name: lies(f"{room}/{name}") for name in names}


def wanted(case, before):
    """What is to lie in the folder of a case afterwards."""
    gone = {name for name, what in case.after.items() if what is None}
    made = {name: file_of(what) for name, what in case.after.items() if name not in gone}
    new = {name: File(bytes_of(file.text), file.mode) for name, file in made.items()}
    return {name: what for name, what in {**before, **new}.items() if name not in gone}


def size(path):
    """How many bytes a file has; none where there is no file."""
    try:
        return os.stat(path).st_size
    except FileNotFoundError:
        return 0


def fill(room, before):
    os.mkdir(room)
    for name in FOLDERS:
        os.mkdir(f"{room}/{name}")
    for name, what in [*FILES.items(), *before.items()]:
        put(f"{room}/{name}", what)
