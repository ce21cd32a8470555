"""A small library before the C library, which counts the calls that take memory and refuses the one that is due."""
import os
import pathlib
import subprocess

SHIM = r"""
#define _GNU_SOURCE
#include <dlfcn.h>
#include <stdlib.h>
static long count, due = -1;
static char early[65536];
static size_t used;
static void *(*next_malloc)(size_t), *(*next_realloc)(void *, size_t), *(*next_calloc)(size_t, size_t), *(*next_aligned)(size_t, size_t);
static int (*next_memalign)(void **, size_t, size_t);
static void begin(void) {
    static int begun;
    if (begun) return;
    begun = 1;
    next_malloc = dlsym(RTLD_NEXT, "malloc");
    next_realloc = dlsym(RTLD_NEXT, "realloc");
    next_calloc = dlsym(RTLD_NEXT, "calloc");
    next_aligned = dlsym(RTLD_NEXT, "aligned_alloc");
    next_memalign = dlsym(RTLD_NEXT, "posix_memalign");
    if (getenv("FAIL_AT")) due = atol(getenv("FAIL_AT"));
}
static int is_due(void) { return ++count == due; }
static void *early_bytes(size_t n) { void *p = early + used; used += (n + 15) & ~(size_t)15; return p; }
void *malloc(size_t n) { begin(); if (!next_malloc) return early_bytes(n); return is_due() ? 0 : next_malloc(n); }
void *realloc(void *p, size_t n) { begin(); return is_due() ? 0 : next_realloc(p, n); }
void *calloc(size_t a, size_t b) { begin(); if (!next_calloc) return early_bytes(a * b); return is_due() ? 0 : next_calloc(a, b); }
void *aligned_alloc(size_t a, size_t n) { begin(); return is_due() ? 0 : next_aligned(a, n); }
int posix_memalign(void **p, size_t a, size_t n) { begin(); return is_due() ? 12 : next_memalign(p, a, n); }
"""


def built(work):
    """The library, built in this folder."""
    pathlib.Path(work, "shim.c").write_text(SHIM)
    subprocess.run(["cc", "-O1", "-shared", "-fPIC", "-o", "shim.so", "shim.c", "-ldl"], cwd=work, check=True)
    return os.path.join(work, "shim.so")


def ended(library, words, due, work, text=None):
    """How these words of a program end where this call for memory fails, the first being 1: their status, text and errors. This text is its
    standard input, if there is one."""
    environment = dict(os.environ, LD_PRELOAD=library, FAIL_AT=str(due))
    given = None if text is None else text.encode()
    done = subprocess.run(words, input=given, capture_output=True, env=environment, cwd=work)
    return done.returncode, done.stdout.decode(), done.stderr.decode()
