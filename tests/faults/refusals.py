"""Runs of a program in which one call fails: of `malloc` or `realloc`, or of the system. The scripts beside it use it.

A small C library stands in front of the C library's calls, so `cc` is needed. Calls are counted from 1. Those of the
loader and of the C library itself are not among them.
"""

import collections
import concurrent.futures
import os
import pathlib
import struct
import subprocess
import tempfile

from examples import Outcome

SHIM = r"""
#define _GNU_SOURCE
#include <dlfcn.h>
#include <errno.h>
#include <fcntl.h>
#include <stdarg.h>
#include <stdlib.h>
#include <sys/mman.h>
#include <sys/stat.h>
#include <sys/syscall.h>
#include <time.h>
#include <unistd.h>

enum { MEMORY, SYSTEM, KINDS };
static long own[KINDS], fails_at[KINDS], *counts;

static long number_in(const char *name) {
    const char *text = getenv(name);
    return text ? atol(text) : 0;
}

// The counts lie in a file, since a program may end without its destructors. Takes no memory.
static void begin(void) {
    const char *name = getenv("COUNT_FILE");
    int file = name ? syscall(SYS_openat, AT_FDCWD, name, O_RDWR | O_CREAT | O_TRUNC, 0600) : -1;
    fails_at[MEMORY] = number_in("FAIL_MEMORY");
    fails_at[SYSTEM] = number_in("FAIL_SYSTEM");
    counts = own;
    if (file >= 0 && ftruncate(file, sizeof own) == 0) {
        void *shared = mmap(NULL, sizeof own, PROT_READ | PROT_WRITE, MAP_SHARED, file, 0);
        if (shared != MAP_FAILED) counts = shared;
    }
}

static int fails(int kind, int error) {
    if (!counts) begin();
    if (__sync_add_and_fetch(&counts[kind], 1) != fails_at[kind]) return 0;
    errno = error;
    return 1;
}

#define REAL(name) \
    static __typeof__(&name) real; \
    if (!real) real = (__typeof__(&name))dlsym(RTLD_NEXT, #name);

void *malloc(size_t size) {
    REAL(malloc)
    return fails(MEMORY, ENOMEM) ? NULL : real(size);
}
void *realloc(void *old, size_t size) {
    REAL(realloc)
    return fails(MEMORY, ENOMEM) ? NULL : real(old, size);
}
#define MODE(after) \
    va_list rest; \
    va_start(rest, after); \
    mode_t mode = va_arg(rest, mode_t); \
    va_end(rest);
int open(const char *path, int flags, ...) {
    REAL(open)
    MODE(flags)
    return fails(SYSTEM, EIO) ? -1 : real(path, flags, mode);
}
int openat(int folder, const char *path, int flags, ...) {
    REAL(openat)
    MODE(flags)
    return fails(SYSTEM, EIO) ? -1 : real(folder, path, flags, mode);
}
ssize_t read(int file, void *bytes, size_t size) {
    REAL(read)
    return fails(SYSTEM, EIO) ? -1 : real(file, bytes, size);
}
ssize_t write(int file, const void *bytes, size_t size) {
    REAL(write)
    return fails(SYSTEM, EIO) ? -1 : real(file, bytes, size);
}
ssize_t getdents64(int file, void *bytes, size_t size) {
    REAL(getdents64)
    return fails(SYSTEM, EIO) ? -1 : real(file, bytes, size);
}
int statx(int folder, const char *restrict path, int flags, unsigned mask, struct statx *restrict into) {
    REAL(statx)
    return fails(SYSTEM, EIO) ? -1 : real(folder, path, flags, mask, into);
}
int clock_gettime(clockid_t clock, struct timespec *into) {
    REAL(clock_gettime)
    return fails(SYSTEM, EIO) ? -1 : real(clock, into);
}
"""

Counts = collections.namedtuple("Counts", "memory system")


class Shim:
    """The library, in a folder that is there until the end of its `with`."""

    def __enter__(self):
        self.temporary = tempfile.TemporaryDirectory()
        self.folder = pathlib.Path(self.temporary.name)
        (self.folder / "shim.c").write_text(SHIM)
        subprocess.run(["cc", "-shared", "-fPIC", "-O1", "-o", "shim.so", "shim.c", "-ldl"], cwd=self.folder, check=True)
        return self

    def __exit__(self, *_):
        self.temporary.cleanup()

    def run(self, command, settings, **options):
        """How a run ends, under these variables of the library."""
        env = dict(os.environ, LD_PRELOAD=str(self.folder / "shim.so"), **settings)
        ran = subprocess.run(command, stdout=subprocess.PIPE, stderr=subprocess.PIPE, env=env, timeout=60, **options)
        return Outcome(ran.returncode, ran.stdout, ran.stderr)

    def counted(self, command, **options):
        """How a run ends in which no call fails, and how many calls of each kind it makes."""
        file = self.folder / "counts"
        ended = self.run(command, {"COUNT_FILE": str(file)}, **options)
        return ended, Counts(*struct.unpack("ll", file.read_bytes()))

    def each(self, command, kind, calls, **options):
        """The number of each call of a kind, and how the run ends in which it fails; many runs at a time."""
        with concurrent.futures.ThreadPoolExecutor(os.cpu_count()) as pool:
            settings = ({f"FAIL_{kind.upper()}": str(number)} for number in range(1, calls + 1))
            yield from enumerate(pool.map(lambda it: self.run(command, it, **options), settings), 1)
