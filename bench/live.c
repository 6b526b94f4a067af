/* Counts the bytes that a program's heap holds. Each time that it reads its standard input they are written as a line into the file LIVE_FILE.
   Loaded before the program by LD_PRELOAD. */
#define _GNU_SOURCE
#include <fcntl.h>
#include <malloc.h>
#include <stdio.h>
#include <stdlib.h>
#include <sys/syscall.h>
#include <unistd.h>

extern void *__libc_malloc(size_t);
extern void *__libc_calloc(size_t, size_t);
extern void *__libc_realloc(void *, size_t);
extern void *__libc_memalign(size_t, size_t);
extern void __libc_free(void *);

static long held;

static void *counted(void *it) {
    if (it) __atomic_add_fetch(&held, (long)malloc_usable_size(it), __ATOMIC_RELAXED);
    return it;
}

static void gone(void *it) {
    if (it) __atomic_sub_fetch(&held, (long)malloc_usable_size(it), __ATOMIC_RELAXED);
}

void *malloc(size_t size) { return counted(__libc_malloc(size)); }
void *calloc(size_t count, size_t size) { return counted(__libc_calloc(count, size)); }
void *aligned_alloc(size_t align, size_t size) { return counted(__libc_memalign(align, size)); }
void free(void *it) { gone(it); __libc_free(it); }

void *realloc(void *old, size_t size) {
    gone(old);
    void *it = __libc_realloc(old, size);
    return counted(it ? it : size ? old : 0) && it ? it : 0;
}

int posix_memalign(void **out, size_t align, size_t size) {
    *out = counted(__libc_memalign(align, size));
    return *out ? 0 : 12;
}

ssize_t read(int file, void *room, size_t size) {
    const char *name = file == 0 ? getenv("LIVE_FILE") : 0;
    if (name) {
        char text[32];
        int length = snprintf(text, sizeof text, "%ld\n", held);
        long log = syscall(SYS_open, name, O_CREAT | O_WRONLY | O_APPEND, 0600);
        if (log >= 0) { syscall(SYS_write, log, text, (size_t)length); syscall(SYS_close, log); }
    }
    return syscall(SYS_read, file, room, size);
}
