/* Preloaded before a program, writes to the file RECORD what the program does to the disk: each opening of a file whose path has "office.db" in it, or of
   the folder, each write to such a file with its bytes, each change of its length and each sync; and each write to the first output or to a
   socket, which are answers. A record is a line `KIND PATH AT SIZE`, and behind it SIZE bytes where it is of a write or an answer. */
#define _GNU_SOURCE
#include <dlfcn.h>
#include <fcntl.h>
#include <stdarg.h>
#include <stdio.h>
#include <stdlib.h>
#include <string.h>
#include <sys/socket.h>
#include <sys/stat.h>
#include <unistd.h>

#define MOST 64
static char paths[MOST][512];
static int records = -1;
static int (*next_open)(const char *, int, ...);
static ssize_t (*next_write)(int, const void *, size_t);

__attribute__((constructor)) static void begin(void) {
    next_open = dlsym(RTLD_NEXT, "open");
    next_write = dlsym(RTLD_NEXT, "write");
    records = next_open(getenv("RECORD"), O_CREAT | O_WRONLY | O_APPEND, 0600);
}

static void put(const void *data, size_t size) {
    for (size_t done = 0; done < size;) {
        ssize_t count = next_write(records, (const char *)data + done, size - done);
        if (count <= 0)
            abort();
        done += (size_t)count;
    }
}

static void record(char kind, const char *path, long long at, long long size, const void *data) {
    char line[640];
    put(line, (size_t)snprintf(line, sizeof line, "%c %s %lld %lld\n", kind, path, at, size));
    if (data)
        put(data, (size_t)size);
}

static const char *known(int file) { return file >= 0 && file < MOST && paths[file][0] ? paths[file] : NULL; }

static int opened(int file, const char *path) {
    struct stat found;
    if (file < 0 || file >= MOST || strlen(path) >= sizeof paths[0] || fstat(file, &found))
        return file;
    if (!strstr(path, "office.db") && !S_ISDIR(found.st_mode))
        return file;
    strcpy(paths[file], path);
    record('o', path, 0, (long long)found.st_size, NULL);
    return file;
}

#define NEXT(type, name) static __typeof__(type) next; if (!next) next = (__typeof__(type))dlsym(RTLD_NEXT, name)

#define OPEN(name) \
    int name(const char *path, int flags, ...) { \
        va_list more; va_start(more, flags); int mode = va_arg(more, int); va_end(more); \
        NEXT(int (*)(const char *, int, ...), #name); \
        return opened(next(path, flags, mode), path); \
    }
OPEN(open)
OPEN(open64)

#define WRITE(name) \
    ssize_t name(int file, const void *data, size_t size, off_t at) { \
        NEXT(ssize_t (*)(int, const void *, size_t, off_t), #name); \
        ssize_t count = next(file, data, size, at); \
        if (count > 0 && known(file)) record('w', known(file), (long long)at, (long long)count, data); \
        return count; \
    }
WRITE(pwrite)
WRITE(pwrite64)

#define TRUNCATE(name) \
    int name(int file, off_t size) { \
        NEXT(int (*)(int, off_t), #name); \
        int failed = next(file, size); \
        if (!failed && known(file)) record('t', known(file), (long long)size, 0, NULL); \
        return failed; \
    }
TRUNCATE(ftruncate)
TRUNCATE(ftruncate64)

#define SYNC(name) \
    int name(int file) { \
        NEXT(int (*)(int), #name); \
        int failed = next(file); \
        if (!failed && known(file)) record('s', known(file), 0, 0, NULL); \
        return failed; \
    }
SYNC(fsync)
SYNC(fdatasync)

int close(int file) {
    NEXT(int (*)(int), "close");
    if (file >= 0 && file < MOST)
        paths[file][0] = 0;
    return next(file);
}

ssize_t write(int file, const void *data, size_t size) {
    if (file == 1)
        record('a', "-", 0, (long long)size, data);
    return next_write(file, data, size);
}

ssize_t send(int file, const void *data, size_t size, int flags) {
    NEXT(ssize_t (*)(int, const void *, size_t, int), "send");
    record('a', "-", 0, (long long)size, data);
    return next(file, data, size, flags);
}
