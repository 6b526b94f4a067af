/* Starts a program that ./build made, and says first whether the sources are newer than it: start ROOT NEWER UNKNOWN PROGRAM WORD..
 *
 * ./m_tax and ./m_survey become this program where ./build compiled it, since a look by `find` takes longer than the program itself (bench/start).
 * ROOT/out/sources has the names of all sources and of their folders, one a line, as they were when ./build read them, and ROOT/out/built has the time of that.
 * A file that is new or gone changes the time of its folder. Where one of them is newer, NEWER is printed on standard error, and UNKNOWN where either file is
 * missing. Then this process becomes PROGRAM, whose words are WORD..; status 70 where it can't.
 */
#include <fcntl.h>
#include <stdio.h>
#include <stdlib.h>
#include <string.h>
#include <sys/stat.h>
#include <unistd.h>

/* The bytes of a file, with a 0 behind them; NULL where it can't be read whole. */
static char *contents(int folder, const char *name) {
    struct stat at;
    int file = openat(folder, name, O_RDONLY | O_CLOEXEC);
    char *bytes = file < 0 || fstat(file, &at) ? NULL : malloc(at.st_size + 1);
    ssize_t size = 0, more = bytes ? 1 : 0;
    while (more > 0 && size < at.st_size) size += more = read(file, bytes + size, at.st_size - size);
    if (more <= 0) return NULL;
    bytes[size] = 0;
    close(file);
    return bytes;
}

/* What is to be said of the sources below a folder; NULL where nothing is. */
static const char *complaint(int root, const char *newer, const char *unknown) {
    struct stat built, at;
    char *name = contents(root, "out/sources");
    if (!name || fstatat(root, "out/built", &built, 0)) return unknown;
    for (char *end; (end = strchr(name, '\n')); name = end + 1) {
        *end = 0;
        if (fstatat(root, name, &at, AT_SYMLINK_NOFOLLOW)) continue;
        if (at.st_mtim.tv_sec > built.st_mtim.tv_sec) return newer;
        if (at.st_mtim.tv_sec == built.st_mtim.tv_sec && at.st_mtim.tv_nsec > built.st_mtim.tv_nsec) return newer;
    }
    return NULL;
}

int main(int count, char **words) {
    if (count < 5) return 70;
    int root = open(words[1], O_RDONLY | O_DIRECTORY | O_CLOEXEC);
    const char *said = complaint(root, words[2], words[3]);
    if (said) fprintf(stderr, "%s\n", said);
    execv(words[4], words + 4);
    perror(words[4]);
    return 70;
}
