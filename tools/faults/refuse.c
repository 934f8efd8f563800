// A library to be preloaded: it lets calls of the C library fail, be short or be interrupted, counted from the start of main.
//
// FAULT_CALL   memory, open, read, seek or write: which calls are counted
// FAULT_HOW    once: call FAULT_AT fails. on: it and all later ones fail. short: it reads or writes one byte. shorts: it and all later ones do.
//              interrupted: it ends with EINTR
// FAULT_AT     the number of a call, from 1; 0 lets none fail
// FAULT_COUNT  a file: how many calls there were, and how many were made to fail
#define _GNU_SOURCE
#include <dlfcn.h>
#include <errno.h>
#include <fcntl.h>
#include <stdarg.h>
#include <stdio.h>
#include <stdlib.h>
#include <string.h>
#include <sys/syscall.h>
#include <unistd.h>

enum call { MEMORY, OPEN, READ, SEEK, WRITE, CALLS };
enum how { ONCE, ON, SHORT, SHORTS, INTERRUPTED, HOWS };

static const char *const call_names[CALLS] = {"memory", "open", "read", "seek", "write"};
static const char *const how_names[HOWS] = {"once", "on", "short", "shorts", "interrupted"};

static int started, failed;
static enum call counted = CALLS;
static enum how how;
static long at, calls;
static const char *count_file;

extern void *__libc_malloc(size_t), *__libc_calloc(size_t, size_t), *__libc_realloc(void *, size_t), *__libc_memalign(size_t, size_t);

static int place_of(const char *word, const char *const *words, int count) {
    for (int place = 0; place < count; place++)
        if (word != NULL && strcmp(word, words[place]) == 0)
            return place;
    return count;
}

// Whether the call that begins now is one that is to fail.
static int is_due(enum call call) {
    if (!started || call != counted)
        return 0;
    calls++;
    int due = at > 0 && (calls == at || ((how == ON || how == SHORTS) && calls > at));
    failed += due;
    return due;
}

// Memory.

static void *refused(void) {
    errno = ENOMEM;
    return NULL;
}

void *malloc(size_t size) { return is_due(MEMORY) ? refused() : __libc_malloc(size); }

void *calloc(size_t count, size_t size) { return is_due(MEMORY) ? refused() : __libc_calloc(count, size); }

void *realloc(void *block, size_t size) { return is_due(MEMORY) ? refused() : __libc_realloc(block, size); }

void *reallocarray(void *block, size_t count, size_t size) {
    size_t bytes;
    if (__builtin_mul_overflow(count, size, &bytes))
        return refused();
    return realloc(block, bytes);
}

void *memalign(size_t alignment, size_t size) { return is_due(MEMORY) ? refused() : __libc_memalign(alignment, size); }

void *aligned_alloc(size_t alignment, size_t size) { return memalign(alignment, size); }

int posix_memalign(void **block, size_t alignment, size_t size) {
    void *made = memalign(alignment, size);
    if (made == NULL)
        return ENOMEM;
    *block = made;
    return 0;
}

// Files. A call that is to be short goes on with one byte; any other that is due ends here.

static int ends_here(enum call call, size_t *size) {
    if (!is_due(call))
        return 0;
    if ((how == SHORT || how == SHORTS) && size != NULL) {
        if (*size > 1)
            *size = 1;
        return 0;
    }
    errno = how == INTERRUPTED ? EINTR : EIO;
    return 1;
}

static int opened(int folder, const char *name, int flags, int mode) {
    return ends_here(OPEN, NULL) ? -1 : (int)syscall(SYS_openat, folder, name, flags, mode);
}

static int mode_in(int flags, va_list rest) { return (flags & O_CREAT) || (flags & O_TMPFILE) == O_TMPFILE ? va_arg(rest, int) : 0; }

#define OPENS(NAME, PARAMETERS, FOLDER)                   \
    int NAME PARAMETERS {                                 \
        va_list rest;                                     \
        va_start(rest, flags);                            \
        int mode = mode_in(flags, rest);                  \
        va_end(rest);                                     \
        return opened(FOLDER, name, flags, mode);         \
    }

OPENS(open, (const char *name, int flags, ...), AT_FDCWD)
OPENS(open64, (const char *name, int flags, ...), AT_FDCWD)
OPENS(openat, (int folder, const char *name, int flags, ...), folder)
OPENS(openat64, (int folder, const char *name, int flags, ...), folder)

ssize_t read(int file, void *into, size_t size) { return ends_here(READ, &size) ? -1 : syscall(SYS_read, file, into, size); }

ssize_t pread64(int file, void *into, size_t size, off64_t from) { return ends_here(READ, &size) ? -1 : syscall(SYS_pread64, file, into, size, from); }

ssize_t pread(int file, void *into, size_t size, off_t from) { return pread64(file, into, size, from); }

off_t lseek(int file, off_t offset, int from) { return ends_here(SEEK, NULL) ? -1 : syscall(SYS_lseek, file, offset, from); }

off64_t lseek64(int file, off64_t offset, int from) { return lseek(file, offset, from); }

ssize_t write(int file, const void *bytes, size_t size) { return ends_here(WRITE, &size) ? -1 : syscall(SYS_write, file, bytes, size); }

// The start and the end.

static int (*whole)(int, char **, char **);

static int counting(int count, char **words, char **environment) {
    started = 1;
    int status = whole(count, words, environment);
    started = 0;
    return status;
}

int __libc_start_main(int (*main)(int, char **, char **), int count, char **words, void (*begin)(void), void (*end)(void), void (*last)(void), void *stack) {
    int (*start)(int (*)(int, char **, char **), int, char **, void (*)(void), void (*)(void), void (*)(void), void *) = dlsym(RTLD_NEXT, "__libc_start_main");
    whole = main;
    counted = place_of(getenv("FAULT_CALL"), call_names, CALLS);
    how = place_of(getenv("FAULT_HOW"), how_names, HOWS);
    at = getenv("FAULT_AT") == NULL ? 0 : atol(getenv("FAULT_AT"));
    count_file = getenv("FAULT_COUNT");
    return start(counting, count, words, begin, end, last, stack);
}

__attribute__((destructor)) static void tell(void) {
    char text[64];
    started = 0;
    if (count_file == NULL)
        return;
    int file = (int)syscall(SYS_openat, AT_FDCWD, count_file, O_WRONLY | O_CREAT | O_TRUNC, 0600);
    int size = snprintf(text, sizeof text, "%ld %d\n", calls, failed);
    if (file >= 0 && syscall(SYS_write, file, text, (size_t)size) == size)
        syscall(SYS_close, file);
}
