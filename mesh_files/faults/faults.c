/* For tests: loaded before the C library (LD_PRELOAD), it writes down the calls that put a file on the disk, and lets one of them fail.
 *
 *     CALLS=FILE          each call is a line of FILE
 *     FAULT=NAME:K:ERRNO  the call NAME fails with that number when it is made for the Kth time */
#define _GNU_SOURCE
#include <dlfcn.h>
#include <errno.h>
#include <fcntl.h>
#include <stdio.h>
#include <stdlib.h>
#include <string.h>
#include <sys/stat.h>
#include <unistd.h>

/* The C library's own names; dlsym itself asks for memory. */
extern void *__libc_malloc(size_t size);
extern void *__libc_realloc(void *room, size_t size);

static void note(const char *line)
{
    const char *name = getenv("CALLS");
    int reason = errno, file = name == NULL ? -1 : open(name, O_WRONLY | O_APPEND | O_CREAT, 0666);
    if (file >= 0) {
        (void)!write(file, line, strlen(line));
        close(file);
    }
    errno = reason;
}

/* Whether this call of `name` is to fail; errno is then set. */
static int fails(const char *name)
{
    static int made;
    const char *fault = getenv("FAULT");
    size_t length = strlen(name);
    char *end;
    long nth;
    if (fault == NULL || strncmp(fault, name, length) != 0 || fault[length] != ':')
        return 0;
    nth = strtol(fault + length + 1, &end, 10);
    if (++made != nth)
        return 0;
    errno = *end == ':' ? atoi(end + 1) : EIO;
    return 1;
}

int stat(const char *name, struct stat *at)
{
    return fails("stat") ? -1 : fstatat(AT_FDCWD, name, at, 0);
}

int mkstemp(char *pattern)
{
    int (*real)(char *) = (int (*)(char *))dlsym(RTLD_NEXT, "mkstemp");
    int file = fails("mkstemp") ? -1 : real(pattern);
    note(file >= 0 && file < 3 ? "mkstemp in the place of a standard stream\n" : "mkstemp\n");
    return file;
}

FILE *fdopen(int file, const char *mode)
{
    FILE *(*real)(int, const char *) = (FILE * (*)(int, const char *)) dlsym(RTLD_NEXT, "fdopen");
    return fails("fdopen") ? NULL : real(file, mode);
}

int fchmod(int file, mode_t mode)
{
    int (*real)(int, mode_t) = (int (*)(int, mode_t))dlsym(RTLD_NEXT, "fchmod");
    note("fchmod\n");
    return fails("fchmod") ? -1 : real(file, mode);
}

int fsync(int file)
{
    int (*real)(int) = (int (*)(int))dlsym(RTLD_NEXT, "fsync");
    struct stat at;
    note(fstat(file, &at) == 0 && S_ISDIR(at.st_mode) ? "fsync folder\n" : "fsync file\n");
    return fails("fsync") ? -1 : real(file);
}

int rename(const char *from, const char *to)
{
    int (*real)(const char *, const char *) = (int (*)(const char *, const char *))dlsym(RTLD_NEXT, "rename");
    note("rename\n");
    return fails("rename") ? -1 : real(from, to);
}

void *malloc(size_t size)
{
    return fails("malloc") ? NULL : __libc_malloc(size);
}

void *realloc(void *room, size_t size)
{
    return fails("malloc") ? NULL : __libc_realloc(room, size);
}
