/* Loaded before a program, it refuses one of the calls that the program makes of the C library, and perhaps each later one of the kind.
 * What is refused comes by the environment:
 *
 *   REFUSE_KIND   growth (malloc, and a realloc that needs more room than there is), read, write, open or rename;
 *                 or zero: a write takes no byte
 *   REFUSE_AT     the number of the call, from 1; 0 or none refuses nothing
 *   REFUSE_LATER  where it is there, each later call of the kind is refused too
 *   REFUSE_TOLD   a file that takes how many calls of the kind there were, in 8 bytes, and the name of the object of the call that was
 *                 refused first, in 248 bytes that end by zeros: a file's last name, input, output or errors. It is written as the calls
 *                 come, however the program ends
 *
 * calloc and a realloc within its room go through: the first is the C library's own, and a program may keep what it has where the
 * second is refused. Calls before the library is set up are not counted. */
#define _GNU_SOURCE
#include <errno.h>
#include <fcntl.h>
#include <malloc.h>
#include <stdarg.h>
#include <stdatomic.h>
#include <stdio.h>
#include <stdlib.h>
#include <string.h>
#include <sys/mman.h>
#include <sys/syscall.h>
#include <unistd.h>

enum kind { NOTHING, GROWTH, READ, WRITE, ZERO, OPEN, RENAME };

static const char *const NAMES[] = {"", "growth", "read", "write", "zero", "open", "rename"};

static enum kind refused_kind = NOTHING;
static unsigned long refused_at;
static int refuses_later;

struct told {
    atomic_ulong calls;
    char object[248];
};

static struct told none;
static struct told *told = &none;

extern void *__libc_malloc(size_t);
extern void *__libc_realloc(void *, size_t);

__attribute__((constructor)) static void begin(void) {
    const char *kind = getenv("REFUSE_KIND");
    const char *at = getenv("REFUSE_AT");
    for (int i = GROWTH; kind && i <= RENAME; i++)
        if (strcmp(kind, NAMES[i]) == 0)
            refused_kind = i;
    refused_at = at ? strtoul(at, NULL, 10) : 0;
    refuses_later = getenv("REFUSE_LATER") != NULL;
    const char *path = getenv("REFUSE_TOLD");
    int file = path ? syscall(SYS_openat, AT_FDCWD, path, O_RDWR | O_CREAT | O_TRUNC, 0666) : -1;
    if (file < 0 || ftruncate(file, sizeof none) < 0)
        return;
    void *room = mmap(NULL, sizeof none, PROT_READ | PROT_WRITE, MAP_SHARED, file, 0);
    if (room != MAP_FAILED)
        told = room;
    syscall(SYS_close, file);
}

/* Whether this call of a kind is to be refused. */
static int is_refused(enum kind kind) {
    if (kind != refused_kind)
        return 0;
    unsigned long number = atomic_fetch_add(&told->calls, 1) + 1;
    return refused_at && (number == refused_at || (refuses_later && number > refused_at));
}

static void keep(const char *path) {
    const char *last = strrchr(path, '/');
    const char *name = last ? last + 1 : path;
    if (told->object[0] == 0)
        memcpy(told->object, name, strnlen(name, sizeof told->object - 1));
}

static void keep_descriptor(int descriptor) {
    char link[64], path[4096];
    const char *const streams[] = {"input", "output", "errors"};
    if (descriptor >= 0 && descriptor <= 2) {
        keep(streams[descriptor]);
        return;
    }
    snprintf(link, sizeof link, "/proc/self/fd/%d", descriptor);
    ssize_t length = readlink(link, path, sizeof path - 1);
    if (length < 0)
        return;
    path[length] = 0;
    keep(path);
}

static int fault(int number) {
    errno = number;
    return -1;
}

void *malloc(size_t size) {
    if (is_refused(GROWTH)) {
        errno = ENOMEM;
        return NULL;
    }
    return __libc_malloc(size);
}

void *realloc(void *old, size_t size) {
    if (size > (old ? malloc_usable_size(old) : 0) && is_refused(GROWTH)) {
        errno = ENOMEM;
        return NULL;
    }
    return __libc_realloc(old, size);
}

ssize_t read(int descriptor, void *bytes, size_t count) {
    if (is_refused(READ)) {
        keep_descriptor(descriptor);
        return fault(EIO);
    }
    return syscall(SYS_read, descriptor, bytes, count);
}

ssize_t write(int descriptor, const void *bytes, size_t count) {
    if (is_refused(WRITE)) {
        keep_descriptor(descriptor);
        return fault(EIO);
    }
    if (is_refused(ZERO)) {
        keep_descriptor(descriptor);
        return 0;
    }
    return syscall(SYS_write, descriptor, bytes, count);
}

int openat(int folder, const char *path, int flags, ...) {
    va_list more;
    va_start(more, flags);
    int mode = flags & (O_CREAT | O_TMPFILE) ? va_arg(more, int) : 0;
    va_end(more);
    if (is_refused(OPEN)) {
        keep(path);
        return fault(EACCES);
    }
    return syscall(SYS_openat, folder, path, flags, mode);
}

int open(const char *path, int flags, ...) {
    va_list more;
    va_start(more, flags);
    int mode = flags & (O_CREAT | O_TMPFILE) ? va_arg(more, int) : 0;
    va_end(more);
    return openat(AT_FDCWD, path, flags, mode);
}

int rename(const char *from, const char *to) {
    if (is_refused(RENAME)) {
        keep(to);
        return fault(EACCES);
    }
    return syscall(SYS_renameat, AT_FDCWD, from, AT_FDCWD, to);
}
