"""For: the cases of hman and of its completion, row by row of what man(1) of man-db does.

Needs: contrib/check, which runs them with its own.
Use: contrib/check [PROGRAM]
"""
import fcntl
import functools
import gzip
import os
import pty
import select
import shutil
import struct
import subprocess
import termios

from __main__ import HERE, HEAD, TABLE, case, run, same, with_program, write

HMAN = f"{HERE}/hman"
FLAT = {"MANPATH": "", "COLUMNS": "", "MANWIDTH": "", "MANPAGER": "", "PAGER": "", "MANSECT": "", "MAN_KEEP_FORMATTING": ""}


def page(name, section="1", about="x"):
    return f".TH {name} {section} 2020-01-01 S\n.SH NAME\n{name} \\- {about}\n.SH DESCRIPTION\n\\fBbold\\fR \\fIslanted\\fR {'word ' * 100}\n"


def tree(room):
    """A folder of pages: in several sections, packed, and as other names of a page."""
    write(f"{room}/man1/tool.1", page("tool"))
    write(f"{room}/man3/tool.3.gz", gzip.compress(page("tool", "3", "a call that lists").encode()))
    write(f"{room}/man3/call.3p.gz", gzip.compress(b".so man3/tool.3\n"))
    write(f"{room}/man1/git-commit.1", page("git-commit"))
    write(f"{room}/man1/git.1", page("git"))
    write(f"{room}/man1/tool.conf.1", page("tool.conf"))
    write(f"{room}/man7/lost.7", ".so man1/nothing.1\n")
    write(f"{room}/man7/table.7", HEAD + TABLE)
    return room


def hman_in(program, room, **more):
    """hman over a folder of pages, with nothing else of the environment; what it keeps is below the room."""
    how = {**with_program(program, HOME=f"{room}/home", XDG_CACHE_HOME=f"{room}/cache"), **FLAT, "MANPATH": tree(f"{room}/man"), **more}
    return functools.partial(run, HMAN, env=how, cwd=room, start_new_session=True)


def title(ran):
    """The title of a page that was shown, and what was said and the status."""
    return ran[0].split(" ")[0], *ran[1:]


def in_terminal(columns, *words, **how):
    """What a command shows in a terminal of so many columns, and its status."""
    control, terminal = pty.openpty()
    fcntl.ioctl(terminal, termios.TIOCSWINSZ, struct.pack("4H", 24, columns, 0, 0))
    with subprocess.Popen(["setsid", "-c", "-w", *words], stdin=terminal, stdout=terminal, stderr=terminal, **how) as ran:
        os.close(terminal)
        text = b""
        try:
            while select.select([control], [], [], 60)[0]:
                text += os.read(control, 65536)
        except OSError:
            pass    # (nobody has the terminal any more)
        os.close(control)
    return text.decode().replace("\r\n", "\n"), ran.returncode


def widest(text):
    return max(map(len, text.split("\n")))


# ---- names


@case("gzip")
def sections_and_names(program, room):
    hman = hman_in(program, room)
    write(f"{room}/man/man8/tool.local.8", page("tool.local", "8"))
    same(hman("-w", "tool.local(8)")[0], f"{room}/man/man8/tool.local.8\n")
    for words in (["-s", "3", "tool"], ["-S", "7:3", "tool"], ["-s", "7,3", "tool"], ["3", "tool"], ["tool.3"], ["tool(3)"], ["3p", "call"], ["call"]):
        same(title(hman(*words)), ("tool(3)", "", 0))
    same(title(hman("tool")), ("tool(1)", "", 0))
    same(title(hman("tool.conf")), ("tool.conf(1)", "", 0))
    same([line.split(" ")[0] for line in hman("3", "tool", "1", "git")[0].split("\n") if "Manual   " in line], ["tool(3)", "git(1)"])


@case("gzip")
def all_pages_and_their_files(program, room):
    hman, man = hman_in(program, room), f"{room}/man"
    same(hman("-w", "tool"), (f"{man}/man1/tool.1\n", "", 0))
    same(hman("-aw", "tool"), (f"{man}/man1/tool.1\n{man}/man3/tool.3.gz\n", "", 0))
    same(hman("-a", "tool")[0].count("DESCRIPTION"), 2)
    same(hman("-w"), (f"{man}\n", "", 0))


@case()
def two_names_of_one_page(program, room):
    hman = hman_in(program, room)
    same(title(hman("git", "commit")), ("git-commit(1)", "", 0))
    out, said, status = hman("git", "nosuch")
    same((title((out,))[0], said.split("\n")[-2:], status), ("git(1)", ["hman: no manual entry for nosuch", ""], 16))


@case()
def wrong_command_lines(program, room):
    hman = hman_in(program, room)
    for words, text in ((["-Z"], "there is no option -Z"), (["--nosuch"], "there is no option --nosuch"), ([], "which page?"),
            (["-s"], "the option -s wants a word"), (["-s", "3"], "which page?"), (["-O", "width=5x", "tool"], "there is no measure width=5x"),
            (["-O", "width=57", "tool"], "a width is 58 to 300: 57"), (["-O", "indent=21", "tool"], "an indent is 0 to 20: 21")):
        out, said, status = hman(*words)
        same((out, said.split("\n")[:2][0], said.split("\n")[1][:12], status), ("", f"hman: {text}", "usage: hman ", 2))
    same(hman("-s", "../x", "tool"), ("", "hman: a section is letters and digits: ../x\n", 2))
    same(hman("--help")[1:], ("", 0))


@case()
def pages_that_are_not_there(program, room):
    hman = hman_in(program, room)
    hman("-k", "x")
    same(hman("nosuch"), ("", "hman: no manual entry for nosuch\n", 16))
    same(hman("-s", "3", "git"), ("", "hman: no manual entry for git in section 3\n", 16))
    same(hman("./nosuch"), ("", "hman: there is no file ./nosuch\n", 16))
    same(hman("-l", "nosuch", "man"), ("", "hman: there is no file nosuch\nhman: man is a folder\n", 16))
    write(f"{room}/man/man1/packed.1.gz", "no gzip")
    out, said, status = hman("packed")
    same((out, said.split("\n")[-2], status), ("", f"hman: {room}/man/man1/packed.1.gz: cannot be unpacked, or is too large", 4))
    same(hman("lost"), ("", f"hman: {room}/man/man7/lost.7: there is no man1/nothing.1\n", 3))
    same(hman_in("no-mandoc", room)("tool"), ("", "hman: there is no program no-mandoc: set MANDOC to its path\n", 127))


@case("gzip")
def pages_in_files(program, room):
    hman = hman_in(program, room)
    write(f"{room}/-own.1", page("own"))
    for words in (["-l", "--", "-own.1"], ["./-own.1"], [f"{room}/-own.1"]):
        same(title(hman(*words)), ("own(1)", "", 0))
    for words in (["-"], ["-l", "-"]):
        same(title(hman(*words, stdin=page("own"))), ("own(1)", "", 0))
    same(title(hman("-l", f"{room}/man/man3/call.3p.gz")), ("tool(3)", "", 0))


@case()
def strange_names(program, room):
    man = f"{room}/man of $(touch a) 'x' \"y\""
    for name in ("$(touch b)", "`touch c`", "'; touch d; '", "a b", "-a", "*", "\\n", "x\"y", "%s"):
        write(f"{man}/man1/{name}.1", page("odd"))
        same(title(hman_in(program, room, MANPATH=man)("--", name)), ("odd(1)", "", 0))
        same(hman_in(program, room, MANPATH=man)("-w", "--", f"{name}.1"), (f"{man}/man1/{name}.1\n", "", 0))
    same(hman_in(program, room)("--", "too*", "$(touch b)(1)", "[t]ool")[2], 16)
    same(sorted(os.listdir(room)), ["cache", "man", os.path.basename(man)])


# ---- where pages are


@case()
def folders_of_pages(program, room):
    own = os.path.dirname(os.path.dirname(write(f"{room}/own/man1/tool.1", page("own"))))
    usual = f"{room}/home/.local/share/man:/usr/local/share/man:/usr/share/man"
    for path, folders in (("", usual), (f":{own}", f"{usual}:{own}"), (f"{own}:", f"{own}:{usual}"), (f"{own}::/x", f"{own}:{usual}:/x"), (own, own)):
        same(hman_in(program, room, MANPATH=path)("-w"), (f"{folders}\n", "", 0))
    write(f"{room}/home/.local/share/man/man1/homely.1", page("homely"))
    same(title(hman_in(program, room, MANPATH=f":{own}")("homely")), ("homely(1)", "", 0))
    same(title(hman_in(program, room, MANPATH=f"{own}:")("tool")), ("own(1)", "", 0))


@case("perl")
def pages_of_a_language(program, room):
    write(f"{room}/man/de/man1/tool.1", page("Werkzeug"))
    write(f"{room}/man/pt_BR/man1/tool.1", page("ferramenta"))
    for language, found in (("de_DE.UTF-8", "Werkzeug(1)"), ("de", "Werkzeug(1)"), ("pt_BR.UTF-8@x", "ferramenta(1)"), ("pt_PT", "tool(1)"), ("C", "tool(1)")):
        # (none of these is installed, of which nothing is said)
        same(title(hman_in(program, room, LC_ALL="", LANG=language)("tool")), (found, "", 0))
        same(title(hman_in(program, room, LC_ALL=language)("git")), ("git(1)", "", 0))


# ---- the index


@case("gzip")
def words_and_names(program, room):
    hman = hman_in(program, room)
    making = f"hman: making an index of {room}/man in {room}/cache/hman{room}/man; this takes a while\n"
    same(hman("-k", "LIST"), ("tool(3) - a call that lists\n", making, 0))
    same(hman("-f", "tool"), ("tool(1) - x\ntool(3) - a call that lists\n", "", 0))
    same(hman("-s", "1", "-f", "tool"), ("tool(1) - x\n", "", 0))
    same(hman("-f", "too", "git"), ("git(1) - x\n", "hman: nothing appropriate for too\n", 16))
    same(hman("-k", "a\\tb"), ("", "hman: nothing appropriate for a\\tb\n", 16))
    write(f"{room}/man/man1/newer.1", page("newer"))
    os.utime(f"{room}/man/man1", (2 ** 31, 2 ** 31))
    same(hman("-k", "newer"), ("newer(1) - x\n", "", 0))


@case("gzip")
def regular_expressions(program, room):
    hman = hman_in(program, room)
    hman("-k", "x")
    same(hman("-k", "call.*(lists|prints)")[0], "tool(3) - a call that lists\n")
    same(hman("-k", "^GIT-")[0], "git-commit(1) - x\n")
    # (what is no regular expression is a plain word, as is a part of a name)
    same(hman("-k", "tool.conf")[0], "tool.conf(1) - x\n")
    same(hman("-k", "call (that"), ("", "hman: nothing appropriate for call (that\n", 16))
    same(hman("-f", "too.*")[2], 16)


@case("gzip")
def names_without_a_file(program, room):
    hman, man = hman_in(program, room), f"{room}/man"
    write(f"{man}/man8/tc-codel.8.gz", gzip.compress(page("CoDel", "8", "a queue").encode()))
    write(f"{man}/man1/Mixed.1", page("Mixed"))
    # (files come first, and an index is made for a name that no file has)
    same((hman("-w", "TOOL"), os.path.exists(f"{room}/cache")), ((f"{man}/man1/tool.1\n", "", 0), False))
    same((hman("-w", "CoDel")[::2], os.path.exists(f"{room}/cache")), ((f"{man}/man8/tc-codel.8.gz\n", 0), True))
    for words in (["CoDel"], ["CoDel(8)"], ["8", "CoDel"], ["codel"], ["CODEL(8)"]):
        same((words, hman("-w", *words)), (words, (f"{man}/man8/tc-codel.8.gz\n", "", 0)))
    same(hman("-s", "1", "CoDel")[2], 16)
    for name in ("mixed", "MIXED", "mixed(1)", "TOOL"):
        same((name, hman(name)[1:]), (name, ("", 0)))
    same(hman("-w", "-s", "3", "TOOL"), (f"{man}/man3/tool.3.gz\n", "", 0))
    write(f"{man}/man8/tc-cake.8", page("CAKE", "8"))
    os.utime(f"{man}/man8", (2 ** 31, 2 ** 31))
    same(hman("-w", "cake"), (f"{man}/man8/tc-cake.8\n", "", 0))
    os.remove(f"{man}/man8/tc-codel.8.gz")
    same(hman("CoDel")[2], 16)
    same(hman_in(program, room, XDG_CACHE_HOME="/dev/null")("CAKE"), ("", "hman: no manual entry for CAKE\n", 16))


@case()
def lines_that_name_a_page(program, room):
    hman, man = hman_in(program, room), f"{room}/man"
    forms = (".so man1/tool.1", "'so man1/tool.1", ".so\tman1/tool.1", ".  so  man1/tool.1", '.so "man1/tool.1"', ".so man1/tool.1 ", ".so man1/tool.1\r",
        '.so man1/tool.1 \\" x', ".so tool.1", f".so {man}/man1/tool.1", ".\\\" x\n.so man1/tool.1")
    for form in forms:
        write(f"{man}/man1/alias.1", f"{form}\n")
        same((form, title(hman("alias"))), (form, ("tool(1)", "", 0)))
    write(f"{man}/man1/part.1", "one part\n")
    write(f"{man}/man1/whole.1", page("whole") + ".SH MORE\nbefore\n.so man1/part.1\nafter\n")
    same("before one part after" in hman("whole")[0], True)
    write(f"{man}/man1/whole.1", page("whole") + ".SH MORE\nbefore\n.so man1/nosuch.1\nafter\n")
    out, said, status = hman("whole")
    same(("before after" in out, said, status), (True, f"hman: {man}/man1/whole.1: there is no man1/nosuch.1\n", 3))


@case("gzip")
def pages_that_name_too_much(program, room):
    hman, man = hman_in(program, room), f"{room}/man"
    write(f"{room}/secret", "secret\n")
    for name in ("../secret", f"{room}/secret", "man1/../../secret", "/etc/passwd", "man1", ".", "..", ""):
        write(f"{man}/man1/alias.1", f".so {name}\n")
        out, said, status = hman("alias")
        same((name, out, said.startswith(f"hman: {man}/man1/alias.1: there is no "), status), (name, "", True, 3))
    os.symlink("/dev/zero", f"{man}/man1/zero.1")
    os.mkfifo(f"{man}/man1/pipe.1")
    for name in ("zero", "pipe"):
        write(f"{man}/man1/alias.1", f".so man1/{name}.1\n")
        same((name, hman("alias")[1:]), (name, (f"hman: {man}/man1/alias.1: there is no man1/{name}.1\n", 3)))
    write(f"{man}/man1/alias.1", ".so man1/alias.1\n")
    same(hman("alias"), ("", f"hman: {man}/man1/alias.1: man1/alias.1 names itself\n", 3))
    for i in range(9):
        write(f"{man}/man2/n{i}.2", f"n{i}\n" + f".so man2/n{i + 1}.2\n" * 20)
    out, said, status = hman("n0")
    same((status, "n5" in out, "n6" in out, said.count("\n")), (3, True, False, 1))
    write(f"{man}/man1/it's $(touch made).1.gz", gzip.compress(page("odd").encode()))
    write(f"{man}/man1/alias.1", ".so man1/it's $(touch made).1\n")
    same((title(hman("alias")), os.path.exists(f"{room}/made")), (("odd(1)", "", 0), False))


@case()
def options_of_man(program, room):
    hman = hman_in(program, room, MANPATH="/nosuch")
    man = f"{room}/man"
    same((hman("-M", man, "-w", "tool"), hman(f"--manpath={man}", "--path", "tool")), ((f"{man}/man1/tool.1\n", "", 0),) * 2)
    same((hman("--path"), hman("-M", man, "--where")), (("/nosuch\n", "", 0), (f"{man}\n", "", 0)))
    same((widest(hman("-M", man, "-O", "width=60", "tool")[0]), widest(hman("-M", man, "-O", "width=100,indent=3", "tool")[0])), (60, 100))
    same("\n   tool - x" in hman("-M", man, "-O", "indent=3", "tool")[0], True)
    with open(f"{HERE}/../man/mandoc.1", encoding="utf-8") as file:
        version = next(line.split()[-1] for line in file if line.startswith(".Os "))
    same((hman("-V"), hman("--version")), ((f"hman {version}\n", "", 0),) * 2)


@case("gzip", "perl")
def filters_that_fail(program, room):
    os.chmod(write(f"{room}/bin/perl", "#!/bin/sh\ncat\nexit 1\n"), 0o755)
    hman = hman_in(program, room, PATH=f"{room}/bin:{os.environ['PATH']}")
    out, said, status = hman("table")
    same((out[:4], said, status), ("T(1)", "hman: table.7: tblrows.pl failed: what is shown may lack something\n", 4))
    same(title(hman("tool")), ("tool(1)", "", 0))
    os.chmod(write(f"{room}/bin/broken", "#!/bin/sh\ncat > /dev/null\nexit 9\n"), 0o755)
    same(hman_in(f"{room}/bin/broken", room)("tool"), ("", f"hman: tool.1: {room}/bin/broken failed: what is shown may lack something\n", 4))


@case("busybox", "gzip")
def hman_of_busybox(program, room):
    os.makedirs(f"{room}/bin")
    for name in subprocess.run(["busybox", "--list"], capture_output=True, text=True, check=True).stdout.split():
        if not os.path.exists(f"{room}/bin/{name}"):
            os.symlink(shutil.which("busybox"), f"{room}/bin/{name}")
    how = hman_in(program, room, PATH=f"{room}/bin").keywords
    own = write(f"{room}/own.1", page("own") + "\\fB\u00e9\\fR \\fI\u00e9\\fR\n.Lb libc\n")
    ash = functools.partial(run, f"{room}/bin/ash", HMAN, **{**how, "env": {**how["env"], "LC_ALL": "C.UTF-8"}})
    dash = hman_in(program, room, LC_ALL="C.UTF-8")
    for words in (["tool"], ["3", "tool"], ["-w", "-a", "tool"], ["git", "commit"], ["TOOL"], [own], ["-k", "call.*lists"], ["-f", "tool"], ["call"]):
        same((words, ash(*words)[::2]), (words, dash(*words)[::2]))


@case()
def an_index_that_cannot_be_made(program, room):
    for name in ("apropos", "whatis"):
        os.chmod(write(f"{room}/bin/{name}", f"#!/bin/sh\necho {name} \"$@\"\n"), 0o755)
    cache = write(f"{room}/file", "")
    hman = hman_in(program, room, XDG_CACHE_HOME=cache, PATH=f"{room}/bin:{os.environ['PATH']}")
    same((hman("-k", "a b")[0], hman("-f", "--", "-x")[0]), ("apropos -- a b\n", "whatis -- -x\n"))


# ---- how pages are shown


@case()
def plain_text_in_pipes(program, room):
    # (a letter of two bytes in bold, and one that is slanted)
    own = write(f"{room}/own.1", page("own") + "\\fB\u00e9\\fR \\fI\u00e9\\fR\n")
    text, said, status = hman_in(program, room, LC_ALL="C.UTF-8")(own)
    same(("\b" in text, "       bold slanted word" in text, " \u00e9 \u00e9\n" in text, said, status), (False, True, True, "", 0))
    same("b\bbo\bo" in hman_in(program, room, MAN_KEEP_FORMATTING="1")(own)[0], True)
    long = write(f"{room}/long.1", page("long") + "word\n.br\n" * 20000)
    same(run("sh", "-c", f"'{HMAN}' '{long}' | head -n 1 | wc -l", env=with_program(program)), ("1\n", "", 0))


@case("setsid")
def pagers(program, room):
    env = hman_in(program, room).keywords["env"]
    shown = functools.partial(in_terminal, 80, HMAN, "tool", cwd=room)
    words = {"MANPAGER": "sh -c 'col -bx | sed -n 4p'", "PAGER": "false"} if shutil.which("col") else {"MANPAGER": "sh -c 'sed -n 4p | tr -d \"\\010\"'"}
    same(shown(env={**env, **words})[0].strip(), "tool - x")
    same(shown(env={**env, "PAGER": "head -c 7 | tr t T"}), ("Tool(1)", 0))
    # (a pager that quits at once)
    same(shown(env={**env, "PAGER": "true"}), ("", 0))
    tools = ["sh", "readlink", "sed", "cat", "grep", "mktemp", "rm", "sort", "stty", "tr", "perl", "setsid"]
    for name in filter(shutil.which, tools):
        os.makedirs(f"{room}/bin", exist_ok=True)
        os.symlink(shutil.which(name), f"{room}/bin/{name}")
    same(shown(env={**env, "PATH": f"{room}/bin"})[0].startswith("tool(1) "), True)
    os.chmod(write(f"{room}/bin/more", "#!/bin/sh\necho more\n"), 0o755)
    same(shown(env={**env, "PATH": f"{room}/bin"}), ("more\n", 0))
    os.chmod(write(f"{room}/bin/less", "#!/bin/sh\necho less $LESS\n"), 0o755)
    text, status = shown(env={**env, "PATH": f"{room}/bin"})
    same((text.startswith("less -PsManual page tool(1) ?lt"), text.endswith(" or q to quit)$FRX\n"), status), (True, True, 0))
    text, status = shown(env={**env, "PAGER": "nosuch -x"})
    same((text.endswith("hman: the pager cannot be run: nosuch -x\n"), status), (True, 4))


@case("setsid")
def columns(program, room):
    # (man-db gives a row 39 of 40 columns)
    for words, columns in (({}, 78), ({"COLUMNS": "100"}, 97), ({"MANWIDTH": "72"}, 70), ({"MANWIDTH": "tty", "COLUMNS": "120"}, 117), ({"MANWIDTH": "tty"}, 78),
            ({"MANWIDTH": "20"}, 58), ({"MANWIDTH": "9" * 30}, 300)):
        same((words, widest(hman_in(program, room, **words)("tool")[0])), (words, columns))
    env = {**hman_in(program, room).keywords["env"], "PAGER": "cat", "TERM": "dumb"}
    plain = ["sh", "-c", f"'{HMAN}' tool | cat"]
    for terminal, columns in ((120, 117), (40, 58), (0, 78)):
        same((terminal, widest(in_terminal(terminal, *plain, env=env)[0])), (terminal, columns))
    # (where less was asked to cut rows, it breaks those that are too long for the terminal)
    narrow = {**env, "PAGER": "echo ${LESS##*$}", "LESS": "FRSX"}
    same((in_terminal(59, HMAN, "tool", env=narrow)[0], in_terminal(60, HMAN, "tool", env=narrow)[0]), ("FRSX -+S\n", "FRSX\n"))


# ---- completion


def completing(program, room):
    """The environment in which hman is in the path."""
    env = hman_in(program, room).keywords["env"]
    os.makedirs(f"{room}/bin")
    os.symlink(HMAN, f"{room}/bin/hman")
    write(f"{room}/man/man1/tool$(touch injected).1", page("odd"))
    return {**env, "PATH": f"{room}/bin:{os.environ['PATH']}"}


@case("bash")
def completion_of_bash(program, room):
    how = {"env": completing(program, room), "cwd": room}
    script = f". {HERE}/completion/hman.bash; COMP_WORDS=(hman \"$@\"); COMP_CWORD=$#; _hman; printf '%s\\n' \"${{COMPREPLY[@]}}\""
    bash = functools.partial(run, "bash", "-c", script, "bash", **how)
    same(bash("too")[0], "tool\ntool$(touch injected)\ntool.conf\n")
    same((bash("3", "too"), bash("-s", "1"), bash("-w")), (("tool\n", "", 0), ("1\n", "", 0), ("-w\n", "", 0)))
    same(bash("tool$(touch injected)")[0], "tool$(touch injected)\n")
    # (bash parts a name at its colons)
    for name in ("Font::TTF::Cvt_", "Font::TTF::Cmap", "Font::Other"):
        write(f"{room}/man/man3/{name}.3pm", page(name))
    for words, found in ((["Font", "::", "TTF", "::", "Cv"], "Cvt_\n"), (["Font", "::", "TTF", "::"], "Cmap\nCvt_\n"), (["3", "Font", "::", "O"], "Other\n"),
            (["Fo"], "Font::Other\nFont::TTF::Cmap\nFont::TTF::Cvt_\n"), (["-l", "too"], "\n")):
        same((words, bash(*words)[0]), (words, found))
    same(sorted(os.listdir(room)), ["bin", "man"])


@case("zsh")
def completion_of_zsh(program, room):
    how = {"env": completing(program, room), "cwd": room}
    # (compadd shows what it is given that begins with the word)
    script = f"""compadd() {{ if [[ $1 == -a ]]; then print -l -- ${{(P)2}}; else shift; print -l -- $@; fi | grep "^$PREFIX" }}
        _hman() {{ . {HERE}/completion/_hman }}
        words=(hman "$@") CURRENT=$#words PREFIX=$words[-1]; _hman"""
    zsh = functools.partial(run, "zsh", "-fc", script, "zsh", **how)
    same(sorted(set(zsh("too")[0].split())), ["injected)", "tool", "tool$(touch", "tool.conf"])
    same((zsh("3", "too")[0], zsh("-s", "1")[0], zsh("-w")[0]), ("tool\n", "1\n", "-w\n"))
    same(sorted(os.listdir(room)), ["bin", "man"])


@case("fish")
def completion_of_fish(program, room):
    how = {"env": {**completing(program, room), "XDG_CONFIG_HOME": f"{room}/home"}, "cwd": room}
    script = f"source {HERE}/completion/hman.fish; complete -C \"hman $argv\""
    fish = functools.partial(run, "fish", "-N", "-c", script, "--", **how)
    same(fish("too")[0], "tool\ntool$(touch injected)\ntool.conf\n")
    write(f"{room}/own page.1", page("own"))
    same(fish("./ow")[0].split("\t")[0].strip(), "./own page.1")
    os.remove(f"{room}/own page.1")
    same((fish("3 too")[0], fish("-s ")[0].split("\t")[0]), ("tool\n", "1"))
