/* Lets one call of the C library fail: the call number FAIL_AT, from 1, of the kind FAIL_KIND (memory, open, read, write).
   Where that call comes, the file FAIL_MARK is made; of an open or a read it has the file's name. Loaded before the program
   by LD_PRELOAD; failing.py builds it. */
#define _GNU_SOURCE
#include <dlfcn.h>
#include <errno.h>
#include <fcntl.h>
#include <stdarg.h>
#include <stdio.h>
#include <stdlib.h>
#include <string.h>
#include <sys/syscall.h>
#include <unistd.h>

static long calls;
static long at = -1;
static const char *kind = "";

static void begin(void) {
    if (at >= 0) return;
    const char *number = getenv("FAIL_AT");
    at = number ? atol(number) : 0;
    kind = getenv("FAIL_KIND") ? getenv("FAIL_KIND") : "";
}

static int fails(const char *of) {
    begin();
    if (strcmp(kind, of) != 0 || __atomic_add_fetch(&calls, 1, __ATOMIC_RELAXED) != at) return 0;
    const char *mark = getenv("FAIL_MARK");
    if (mark) {
        long file = syscall(SYS_open, mark, O_CREAT | O_WRONLY, 0600);
        if (file >= 0) syscall(SYS_close, file);
    }
    return 1;
}

extern void *__libc_malloc(size_t);
extern void *__libc_calloc(size_t, size_t);
extern void *__libc_realloc(void *, size_t);
extern void *__libc_memalign(size_t, size_t);

static void *no_memory(void) { errno = ENOMEM; return NULL; }
void *malloc(size_t size) { return fails("memory") ? no_memory() : __libc_malloc(size); }
void *calloc(size_t count, size_t size) { return fails("memory") ? no_memory() : __libc_calloc(count, size); }
void *realloc(void *old, size_t size) { return fails("memory") ? no_memory() : __libc_realloc(old, size); }
void *aligned_alloc(size_t align, size_t size) { return fails("memory") ? no_memory() : __libc_memalign(align, size); }
int posix_memalign(void **out, size_t align, size_t size) {
    if (fails("memory")) return ENOMEM;
    *out = __libc_memalign(align, size);
    return *out ? 0 : ENOMEM;
}

static long io_fault(void) { errno = EIO; return -1; }

static void tell(const char *name) {
    const char *mark = getenv("FAIL_MARK");
    long file = mark ? syscall(SYS_open, mark, O_WRONLY, 0600) : -1;
    if (file >= 0) { syscall(SYS_write, file, name, strlen(name)); syscall(SYS_close, file); }
}

ssize_t read(int file, void *room, size_t size) {
    if (!fails("read")) return syscall(SYS_read, file, room, size);
    char place[32], name[4096] = "";
    snprintf(place, sizeof place, "/proc/self/fd/%d", file);
    if (readlink(place, name, sizeof name - 1) > 0) tell(name);
    return io_fault();
}
ssize_t write(int file, const void *bytes, size_t size) { return fails("write") ? io_fault() : syscall(SYS_write, file, bytes, size); }
int open(const char *name, int flags, ...) {
    va_list rest;
    va_start(rest, flags);
    mode_t mode = (flags & O_CREAT) ? va_arg(rest, mode_t) : 0;
    va_end(rest);
    if (!fails("open")) return (int)syscall(SYS_openat, AT_FDCWD, name, flags, mode);
    tell(name);
    return (int)io_fault();
}
int open64(const char *name, int flags, ...) __attribute__((alias("open")));
