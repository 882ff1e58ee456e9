"""A sync is refused for want of memory and leaves its group closing, and from then on no file takes a byte: the command that
finishes the group ends the run, and the folder has what was committed before."""
import os
import subprocess

from common import PROGRAM, check, fresh, has, made, run

# Stands before the C library: an allocation fails by its number, and behind it each write to a file.
SHIM = r"""
#define _GNU_SOURCE
#include <dlfcn.h>
#include <errno.h>
#include <stdatomic.h>
#include <stdlib.h>
#include <sys/types.h>

extern void *__libc_malloc(size_t);
extern void *__libc_calloc(size_t, size_t);
extern void *__libc_realloc(void *, size_t);
extern void *__libc_memalign(size_t, size_t);

static atomic_long made;
static atomic_int came;
static long failing = -1;

__attribute__((constructor)) static void begin(void)
{
    failing = atol(getenv("FAILS_AT"));
    atomic_store(&made, 0);
}

static int fails(void)
{
    if (failing < 0 || atomic_fetch_add(&made, 1) != failing)
        return 0;
    atomic_store(&came, 1);
    errno = ENOMEM;
    return 1;
}

void *malloc(size_t size) { return fails() ? NULL : __libc_malloc(size); }
void *calloc(size_t count, size_t size) { return fails() ? NULL : __libc_calloc(count, size); }
void *realloc(void *at, size_t size) { return fails() ? NULL : __libc_realloc(at, size); }
void *memalign(size_t align, size_t size) { return fails() ? NULL : __libc_memalign(align, size); }
void *aligned_alloc(size_t align, size_t size) { return memalign(align, size); }

int posix_memalign(void **to, size_t align, size_t size)
{
    void *at = memalign(align, size);
    if (!at)
        return ENOMEM;
    *to = at;
    return 0;
}

ssize_t pwrite(int file, const void *from, size_t count, off_t at)
{
    static ssize_t (*real)(int, const void *, size_t, off_t);
    if (atomic_load(&came)) {
        errno = EIO;
        return -1;
    }
    if (!real)
        real = dlsym(RTLD_NEXT, "pwrite");
    return real(file, from, count, at);
}

ssize_t pwrite64(int file, const void *from, size_t count, off_t at) { return pwrite(file, from, count, at); }
"""

POOL = "create draid1:2d:4c:1s 4 sector=512 height=8 metaslabs=2 slices=1 seed=2\nfill 7 3 1024 1\nsync\n"
SCRIPT = "import\nwrite 7 aa\noffline 0\nsync\nagent 1\nread 7\n"
MOST = 2000


def compiled():
    folder = fresh()
    source, shim = folder / "finishing.c", folder / "finishing.so"
    source.write_text(SHIM)
    subprocess.run(["cc", "-O1", "-shared", "-fPIC", "-o", shim, source], check=True)
    return shim


def main():
    if not has("cc"):
        print("finishing: left out, since there is no cc")
        return
    shim, before = compiled(), made(POOL)
    ended = 0
    for number in range(MOST):
        folder = fresh(copy_of=before)
        status, replies = run(SCRIPT, folder, before=("env", f"LD_PRELOAD={shim}", f"FAILS_AT={number}"))
        lines = replies.splitlines()
        if status == 0 and not any("no memory" in line for line in lines):
            break
        if "sync no memory" not in lines or status != 7:
            continue
        row = f"allocation {number}"
        ended += 1
        check(row, (len(lines), lines[-2:]), (5, ["sync no memory", "shelf fault"]))
        check(f"{row}, behind it", run("import\nread 7\n", folder), run("import\nread 7\n", fresh(copy_of=before)))
    check("some run ended in the finishing of a group", ended > 0, True)
    print(f"finishing: {number} allocations, {ended} runs ended by `agent`")


if __name__ == "__main__":
    main()
