"""How often a run asks for memory: as often for a long page as for a short one, since nothing is asked for once a page is made."""
import os
import subprocess
import tempfile

from cases.files import LeftOut
from cases.runs import is_static

# Stands before the allocator of the C library: the call of the number FAIL_AT is refused.
REFUSING = r"""
#define _GNU_SOURCE
#include <dlfcn.h>
#include <errno.h>
#include <stdio.h>
#include <stdlib.h>
static long calls, refused = -1;
__attribute__((destructor)) static void count(void) {
    const char *name = getenv("CALLS_TO");
    FILE *file = name ? fopen(name, "w") : 0;
    if (file) { fprintf(file, "%ld", calls); fclose(file); }
}
static int refuses(void) {
    if (refused < 0) { const char *at = getenv("FAIL_AT"); refused = at ? atol(at) : 0; }
    return ++calls == refused;
}
void *malloc(size_t size) {
    static void *(*below)(size_t);
    if (!below) below = dlsym(RTLD_NEXT, "malloc");
    if (refuses()) { errno = ENOMEM; return 0; }
    return below(size);
}
void *realloc(void *old, size_t size) {
    static void *(*below)(void *, size_t);
    if (!below) below = dlsym(RTLD_NEXT, "realloc");
    if (refuses()) { errno = ENOMEM; return 0; }
    return below(old, size);
}
void *aligned_alloc(size_t align, size_t size) {
    static void *(*below)(size_t, size_t);
    if (!below) below = dlsym(RTLD_NEXT, "aligned_alloc");
    if (refuses()) { errno = ENOMEM; return 0; }
    return below(align, size);
}
int posix_memalign(void **to, size_t align, size_t size) {
    static int (*below)(void **, size_t, size_t);
    if (!below) below = dlsym(RTLD_NEXT, "posix_memalign");
    return refuses() ? ENOMEM : below(to, align, size);
}
"""

# A page's first lines, and what is repeated below them: text, calls, strings, blocks and scopes, in man(7) and in mdoc(7).
HEADS = {
    ".TH T 1 2020-01-01 S\n.SH NAME\nt \\- x\n": [
        "words of a text line, and some more of them to fill the row\n",
        ".ds a value\n\\*a and \\*[b] and \\n[c]\n.de m\ntext of \\\\$1\n..\n.m one\n",
        ".ie n \\{\\\n.B bold\n.\\}\n.el .I italic\n.RS\n.TP\ntag\ntext of \\fZa paragraph\n",
    ],
    ".Dd 2020-01-01\n.Dt T 1\n.Os S\n.Sh NAME\n.Nm t\n.Nd x\n": [
        ".Bl -tag -width 4n\n.It Fl a Ar b\ntext of an item\n.El\n.ZZ\n",
    ],
}
# How often it is repeated in a short page and in a long one.
FEW, MANY = 1, 300


def library_in(room, text=REFUSING):
    """Compiles what counts and refuses allocations, and answers the path of that."""
    source, library = f"{room}/refusing.c", f"{room}/refusing.so"
    with open(source, "w") as file:
        file.write(text)
    subprocess.run(["cc", "-O1", "-shared", "-fPIC", "-o", library, source, "-ldl"], check=True)
    return library


def allocations(program, library, page, room):
    """How often a run over a page asks for memory."""
    env = dict(os.environ, LD_PRELOAD=library, CALLS_TO=f"{room}/calls")
    how = {"stdout": subprocess.DEVNULL, "stderr": subprocess.DEVNULL, "timeout": 60}
    subprocess.run([program, "-W", "all"], input=page.encode(), env=env, **how)
    with open(f"{room}/calls") as file:
        return int(file.read())


def wrong_in_allocations(program):
    """The pages over which a run asks for memory more often than over a short one of their kind."""
    if is_static(program):
        raise LeftOut("a program that is linked dynamically")
    with tempfile.TemporaryDirectory(prefix="cases-") as room:
        library = library_in(room)
        for head, bodies in HEADS.items():
            for body in bodies:
                few, many = (allocations(program, library, head + body * count, room) for count in (FEW, MANY))
                if few != many:
                    yield f"{many} allocations for a page with {MANY} times {body!r}, and {few} with {FEW}"
