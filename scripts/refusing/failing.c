/* Lets calls of the system fail in a program that it is preloaded into; scripts/check-edge compiles it. FAIL_READ_AFTER=N: once N bytes were read
   from files, each later read fails with EIO. FAIL_RENAME: each rename fails with EIO. */
#define _GNU_SOURCE
#include <dlfcn.h>
#include <errno.h>
#include <stdlib.h>
#include <unistd.h>

static _Atomic long given;

ssize_t read(int file, void *bytes, size_t count) {
    static ssize_t (*real)(int, void *, size_t);
    if (!real) real = (ssize_t (*)(int, void *, size_t))dlsym(RTLD_NEXT, "read");
    const char *after = getenv("FAIL_READ_AFTER");
    if (after && file > 2 && given >= atol(after)) { errno = EIO; return -1; }
    ssize_t got = real(file, bytes, count);
    if (file > 2 && got > 0) given += got;
    return got;
}

int rename(const char *from, const char *to) {
    static int (*real)(const char *, const char *);
    if (!real) real = (int (*)(const char *, const char *))dlsym(RTLD_NEXT, "rename");
    if (getenv("FAIL_RENAME")) { errno = EIO; return -1; }
    return real(from, to);
}
