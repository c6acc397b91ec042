"""A library that refuses one call of a program for memory, or on a file or a stream: for scripts/hostile."""

from __future__ import annotations

import pathlib
import shutil
import subprocess

REFUSING = r"""
#include <errno.h>
#include <stddef.h>
#include <sys/syscall.h>
#include <sys/types.h>

char *getenv(const char *);
long atol(const char *);
long syscall(long, ...);
void abort(void);
void *dlsym(void *, const char *);

static long left = -1;
static const char *kind;

static int refuses(char mine, int error) {
    if (left < 0) {
        kind = getenv("REFUSED");
        left = kind ? atol(kind + 1) : 0;
    }
    if (left == 0 || kind[0] != mine || --left != 0) return 0;
    if (syscall(SYS_write, (int)atol(getenv("MARK")), "x", 1) != 1) abort();
    errno = error;
    return 1;
}
"""

MEMORY = [
    ("void *", "malloc", "size_t n", "n"),
    ("void *", "calloc", "size_t n, size_t m", "n, m"),
    ("void *", "realloc", "void *p, size_t n", "p, n"),
    ("void *", "aligned_alloc", "size_t a, size_t n", "a, n"),
]
DEVICES = [
    ("ssize_t", "read", "int f, void *p, size_t n", "f, p, n"),
    ("ssize_t", "write", "int f, const void *p, size_t n", "f, p, n"),
    ("ssize_t", "pread", "int f, void *p, size_t n, off_t o", "f, p, n, o"),
    ("ssize_t", "pwrite", "int f, const void *p, size_t n, off_t o", "f, p, n, o"),
    ("int", "open", "const char *s, int f, mode_t m", "s, f, m"),
    ("int", "open64", "const char *s, int f, mode_t m", "s, f, m"),
    ("int", "openat", "int d, const char *s, int f, mode_t m", "d, s, f, m"),
    ("int", "fsync", "int f", "f"),
    ("int", "fdatasync", "int f", "f"),
    ("int", "ftruncate", "int f, off_t n", "f, n"),
    ("int", "rename", "const char *s, const char *t", "s, t"),
    ("int", "renameat", "int d, const char *s, int e, const char *t", "d, s, e, t"),
    ("int", "unlink", "const char *s", "s"),
]


def shim() -> str:
    """The C text of what is loaded before the program. Of memory it calls the C library's own names, since to look them
    up
    takes memory."""
    own = {"aligned_alloc": "__libc_memalign"}
    text = REFUSING
    for result, name, taken, given in MEMORY:
        real = own.get(name, f"__libc_{name}")
        refusing = f"return refuses('m', ENOMEM) ? NULL : {real}({given});"
        text += f"{result} {real}({taken});\n{result} {name}({taken}) {{ {refusing} }}\n"
    for result, name, taken, given in DEVICES:
        text += f"""{result} {name}({taken}) {{
    static {result} (*real)({taken});
    if (!real) real = dlsym((void *)-1L, "{name}");
    return refuses('d', EIO) ? -1 : real({given});
}}
"""
    return (
        text
        + """int posix_memalign(void **p, size_t a, size_t n) {
    if (refuses('m', ENOMEM)) return ENOMEM;
    *p = __libc_memalign(a, n);
    return *p ? 0 : ENOMEM;
}
"""
    )


def built(folder: pathlib.Path) -> pathlib.Path:
    source, library = folder / "refusing.c", folder / "refusing.so"
    source.write_text(shim())
    compiler = shutil.which("cc") or shutil.which("clang") or "gcc"
    words = [compiler, "-O1", "-w", "-shared", "-fPIC", "-o", str(library), str(source), "-ldl"]
    subprocess.run(words, check=True)
    return library
