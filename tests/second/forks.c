/* Starts a program often: loaded before it (LD_PRELOAD), it reads requests from the standard input and runs the program once for each, in a process that is
   forked where `main` would be called. So the loader's work is done once.

   A request is a `struct request`, the words, each ended by a zero byte, and what is typed. The reply has a `struct piece` before each piece of what the
   program prints; the last one has how it ended. One with the status READY comes before all. Each run begins with the same memory, as nothing here takes
   any. starting.py has the other side. */
#define _GNU_SOURCE
#include <dlfcn.h>
#include <fcntl.h>
#include <poll.h>
#include <signal.h>
#include <stdint.h>
#include <string.h>
#include <sys/resource.h>
#include <sys/syscall.h>
#include <sys/uio.h>
#include <sys/wait.h>
#include <time.h>
#include <unistd.h>

enum { WORDS = 64, TEXT = 1 << 17, PIECE = 1 << 16, READY = -1234567 };
struct request { uint32_t words, size, typed, seconds, clock; uint64_t memory; } __attribute__((packed));
struct piece { uint32_t size, more; int32_t status; uint32_t late; };

typedef int (*main_of)(int, char **, char **);
typedef int (*start_of)(main_of, int, char **, void (*)(void), void (*)(void), void (*)(void), void *);

static char *words[WORDS + 2], text[TEXT], printed[PIECE];

static void whole(void *room, size_t size) {
    for (size_t at = 0; at < size;) {
        ssize_t some = read(0, (char *)room + at, size - at);
        if (some <= 0) _exit(some != 0 || at != 0);
        at += (size_t)some;
    }
}

static void reply(struct piece head) {
    struct iovec parts[2] = {{&head, sizeof head}, {printed, head.size}};
    for (int k = 0; k < 2;) {
        ssize_t some = writev(1, parts + k, 2 - k);
        if (some < 0) _exit(1);
        for (; k < 2 && (size_t)some >= parts[k].iov_len; k++) some -= (ssize_t)parts[k].iov_len;
        if (k < 2) { parts[k].iov_base = (char *)parts[k].iov_base + some; parts[k].iov_len -= (size_t)some; }
    }
}

static int64_t now(void) {
    struct timespec it;
    clock_gettime(CLOCK_MONOTONIC, &it);
    return it.tv_sec * 1000 + it.tv_nsec / 1000000;
}

/* Whether something can be read there, or it has ended, before a time of the clock. */
static int ready(int file, int64_t until) {
    struct pollfd it = {file, POLLIN, 0};
    int64_t left = until - now();
    return poll(&it, 1, left > 0 ? (int)left : 0) > 0;
}

static void limit(int what, rlim_t soft, rlim_t hard) {
    struct rlimit to = {soft, hard};
    if (setrlimit(what, &to) != 0) _exit(1);
}

/* Reads what a run prints, replies with it in pieces, and waits for the run's end. */
static void heard(pid_t child, int from, int64_t until) {
    struct piece head = {0, 1, 0, 0};
    int ending = (int)syscall(SYS_pidfd_open, child, 0), status = 0;
    while (ready(from, until)) {
        ssize_t some = read(from, printed + head.size, PIECE - head.size);
        if (some <= 0) break;
        head.size += (uint32_t)some;
        if (head.size == PIECE) { reply(head); head.size = 0; }
    }
    head.late = !ready(ending, until);
    if (head.late) kill(child, SIGKILL);
    if (waitpid(child, &status, 0) != child) _exit(1);
    close(from);
    close(ending);
    head.more = 0;
    head.status = status;
    reply(head);
}

/* Reads a request and starts its run: 1 in the process of the run, and 0 here once that has ended. */
static int started(struct request *it) {
    int typed[2], told[2];
    whole(it, sizeof *it);
    if (it->words > WORDS || it->size > TEXT || it->typed > TEXT - it->size) _exit(1);
    whole(text, it->size + it->typed);
    char *at = text;
    for (uint32_t k = 1; k <= it->words; k++, at += strlen(at) + 1) words[k] = at;
    words[it->words + 1] = NULL;
    if (pipe(typed) != 0 || pipe(told) != 0) _exit(1);
    if (it->typed != 0 && write(typed[1], text + it->size, it->typed) != (ssize_t)it->typed) _exit(1);
    close(typed[1]);
    pid_t child = fork();
    if (child < 0) _exit(1);
    if (child != 0) {
        close(typed[0]);
        close(told[1]);
        heard(child, told[0], now() + (int64_t)it->clock * 1000);
        return 0;
    }
    dup2(typed[0], 0);
    dup2(told[1], 1);
    close(typed[0]);
    close(told[0]);
    close(told[1]);
    limit(RLIMIT_AS, it->memory, it->memory);
    limit(RLIMIT_CPU, it->seconds, it->seconds + 1);
    return 1;
}

int __libc_start_main(main_of program, int count, char **given, void (*begin)(void), void (*end)(void), void (*loader)(void), void *stack) {
    start_of start = (start_of)dlsym(RTLD_NEXT, "__libc_start_main");
    struct request it;
    (void)count;
    words[0] = given[0];
    reply((struct piece){0, 0, READY, 0});
    while (!started(&it)) {}
    return start(program, (int)it.words + 1, words, begin, end, loader, stack);
}
