/* Preloaded by bench/faults: counts the requests of one kind that the program makes, and lets one of them fail.
   NETCHECK_FAULT is "KIND N": the Nth request of that kind fails, and with N = 0 none does. The file NETCHECK_FAULT_COUNT, of
   eight bytes, holds the count. `memory`, `open`, `list`, `stat`, `read`, `write` and `thread` fail; `read-again` and `write-again` are
   interrupted by a signal, and `read-short` and `write-short` take one byte alone. */
#define _GNU_SOURCE
#include <dirent.h>
#include <dlfcn.h>
#include <errno.h>
#include <fcntl.h>
#include <pthread.h>
#include <stdarg.h>
#include <stdatomic.h>
#include <stdio.h>
#include <stdlib.h>
#include <string.h>
#include <sys/mman.h>
#include <sys/stat.h>
#include <unistd.h>

static _Atomic(atomic_long *) asked;
static long fails_at;
static char kind[16];

/* Whether this request is the one that fails. */
static int fails(const char *what) {
    atomic_long *count = atomic_load(&asked);
    return count && strcmp(kind, what) == 0 && atomic_fetch_add(count, 1) + 1 == fails_at;
}

/* Whether this request fails, and by which error. */
static int fails_by(const char *what, int error) { return fails(what) ? (errno = error, 1) : 0; }

#define NEXT(type, name) ((type)dlsym(RTLD_NEXT, name))

__attribute__((constructor)) static void begin(void) {
    const char *fault = getenv("NETCHECK_FAULT"), *place = getenv("NETCHECK_FAULT_COUNT");
    int file = place ? NEXT(int (*)(const char *, int), "open")(place, O_RDWR) : -1;
    if (!fault || file < 0 || sscanf(fault, "%15s %ld", kind, &fails_at) != 2) _exit(99);
    void *shared = mmap(NULL, sizeof(atomic_long), PROT_READ | PROT_WRITE, MAP_SHARED, file, 0);
    if (shared == MAP_FAILED) _exit(99);
    close(file);
    atomic_store(&asked, (atomic_long *)shared);
}

extern void *__libc_malloc(size_t), *__libc_realloc(void *, size_t);

void *malloc(size_t size) { return fails_by("memory", ENOMEM) ? NULL : __libc_malloc(size); }
void *realloc(void *old, size_t size) { return fails_by("memory", ENOMEM) ? NULL : __libc_realloc(old, size); }

int open(const char *path, int flags, ...) {
    va_list more;
    va_start(more, flags);
    mode_t mode = flags & O_CREAT ? va_arg(more, mode_t) : 0;
    va_end(more);
    return fails_by("open", EIO) ? -1 : NEXT(int (*)(const char *, int, mode_t), "open")(path, flags, mode);
}

int openat(int at, const char *path, int flags, ...) {
    va_list more;
    va_start(more, flags);
    mode_t mode = flags & O_CREAT ? va_arg(more, mode_t) : 0;
    va_end(more);
    return fails_by("open", EIO) ? -1 : NEXT(int (*)(int, const char *, int, mode_t), "openat")(at, path, flags, mode);
}

ssize_t getdents64(int file, void *bytes, size_t size) {
    return fails_by("list", EIO) ? -1 : NEXT(ssize_t(*)(int, void *, size_t), "getdents64")(file, bytes, size);
}

int statx(int at, const char *restrict path, int flags, unsigned mask, struct statx *restrict told) {
    return fails_by("stat", EIO) ? -1 : NEXT(int (*)(int, const char *, int, unsigned, struct statx *), "statx")(at, path, flags, mask, told);
}

ssize_t read(int file, void *bytes, size_t size) {
    if (fails_by("read", EIO) || fails_by("read-again", EINTR)) return -1;
    return NEXT(ssize_t(*)(int, void *, size_t), "read")(file, bytes, size && fails("read-short") ? 1 : size);
}

ssize_t write(int file, const void *bytes, size_t size) {
    if (fails_by("write", EIO) || fails_by("write-again", EINTR)) return -1;
    return NEXT(ssize_t(*)(int, const void *, size_t), "write")(file, bytes, size && fails("write-short") ? 1 : size);
}

int pthread_create(pthread_t *thread, const pthread_attr_t *how, void *(*work)(void *), void *with) {
    if (fails("thread")) return EAGAIN;
    return NEXT(int (*)(pthread_t *, const pthread_attr_t *, void *(*)(void *), void *), "pthread_create")(thread, how, work, with);
}
