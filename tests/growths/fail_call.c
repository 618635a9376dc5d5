/* Preloaded before a program, fails its call number FAIL_N of the kind FAIL_CALL with the error FAIL_ERRNO, and each call of that kind behind it
   where FAIL_ON is set; with FAIL_SHORT a write takes half its bytes and succeeds, with FAIL_LIE it takes none and says that it took all. Makes the
   file FAIL_MET when it does. */
#define _GNU_SOURCE
#include <dlfcn.h>
#include <errno.h>
#include <fcntl.h>
#include <stdarg.h>
#include <stdlib.h>
#include <string.h>
#include <sys/types.h>
#include <unistd.h>

static long calls = 0;

static int fails(const char *kind) {
    const char *wanted = getenv("FAIL_CALL"), *number = getenv("FAIL_N"), *met = getenv("FAIL_MET");
    if (!wanted || !number || strcmp(kind, wanted))
        return 0;
    calls++;
    if (calls < atol(number) || (calls > atol(number) && !getenv("FAIL_ON")))
        return 0;
    if (met) {
        int (*next_open)(const char *, int, ...) = dlsym(RTLD_NEXT, "open");
        close(next_open(met, O_CREAT | O_WRONLY, 0600));
    }
    errno = atoi(getenv("FAIL_ERRNO"));
    return 1;
}

#define NEXT(type, name) static __typeof__(type) next; if (!next) next = (__typeof__(type))dlsym(RTLD_NEXT, name)

#define WRITE(name) \
    ssize_t name(int file, const void *data, size_t size, off_t at) { \
        NEXT(ssize_t (*)(int, const void *, size_t, off_t), #name); \
        if (fails("pwrite")) { \
            if (getenv("FAIL_LIE")) return (ssize_t)size; \
            if (!getenv("FAIL_SHORT")) return -1; \
            size = size > 1 ? size / 2 : size; \
        } \
        return next(file, data, size, at); \
    }
WRITE(pwrite)
WRITE(pwrite64)

#define SYNC(name) \
    int name(int file) { NEXT(int (*)(int), #name); return fails("sync") ? -1 : next(file); }
SYNC(fsync)
SYNC(fdatasync)

#define TRUNCATE(name) \
    int name(int file, off_t size) { NEXT(int (*)(int, off_t), #name); return fails("truncate") ? -1 : next(file, size); }
TRUNCATE(ftruncate)
TRUNCATE(ftruncate64)

#define OPEN(name) \
    int name(const char *path, int flags, ...) { \
        va_list more; va_start(more, flags); int mode = va_arg(more, int); va_end(more); \
        NEXT(int (*)(const char *, int, ...), #name); \
        return strstr(path, "office.db") && fails("open") ? -1 : next(path, flags, mode); \
    }
OPEN(open)
OPEN(open64)

#define OPENAT(name) \
    int name(int folder, const char *path, int flags, ...) { \
        va_list more; va_start(more, flags); int mode = va_arg(more, int); va_end(more); \
        NEXT(int (*)(int, const char *, int, ...), #name); \
        return strstr(path, "office.db") && fails("open") ? -1 : next(folder, path, flags, mode); \
    }
OPENAT(openat)
OPENAT(openat64)

int unlink(const char *path) { NEXT(int (*)(const char *), "unlink"); return fails("unlink") ? -1 : next(path); }
int unlinkat(int folder, const char *path, int flags) { NEXT(int (*)(int, const char *, int), "unlinkat"); return fails("unlink") ? -1 : next(folder, path, flags); }
