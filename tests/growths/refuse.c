/* Preloaded before a program, refuses its growth number FAIL_N: that call of malloc or realloc answers no memory. Where FAIL_LINE is set, growths are
   counted behind the reading of that line of standard input alone, where each is read by itself, up to the next reading or the next write to the
   first output. Makes the file FAIL_MET, if one is named, when it refuses. */
#define _GNU_SOURCE
#include <dlfcn.h>
#include <errno.h>
#include <fcntl.h>
#include <stdlib.h>
#include <unistd.h>

static long refused = -1, calls = 0, line = 0, lines = 0;
static int counts = 1;
static void *(*next_malloc)(size_t);
static void *(*next_realloc)(void *, size_t);
static ssize_t (*next_read)(int, void *, size_t);
static ssize_t (*next_write)(int, const void *, size_t);

static void begin(void) {
    const char *number = getenv("FAIL_N"), *at = getenv("FAIL_LINE");
    next_malloc = dlsym(RTLD_NEXT, "malloc");
    next_realloc = dlsym(RTLD_NEXT, "realloc");
    next_read = dlsym(RTLD_NEXT, "read");
    next_write = dlsym(RTLD_NEXT, "write");
    if (number)
        refused = atol(number);
    if (at) {
        line = atol(at);
        counts = 0;
    }
}

static int is_refused(void) {
    if (!next_malloc)
        begin();
    if (!counts || ++calls != refused)
        return 0;
    if (getenv("FAIL_MET"))
        close(open(getenv("FAIL_MET"), O_CREAT | O_WRONLY, 0600));
    errno = ENOMEM;
    return 1;
}

void *malloc(size_t size) {
    return is_refused() ? NULL : next_malloc(size);
}

void *realloc(void *old, size_t size) {
    return is_refused() ? NULL : next_realloc(old, size);
}

ssize_t read(int file, void *data, size_t size) {
    if (!next_read)
        begin();
    if (file != 0 || !line)
        return next_read(file, data, size);
    counts = 0;
    ssize_t count = next_read(file, data, size);
    counts = count > 0 && ++lines == line;
    return count;
}

ssize_t write(int file, const void *data, size_t size) {
    if (!next_write)
        begin();
    if (file == 1 && line)
        counts = 0;
    return next_write(file, data, size);
}
