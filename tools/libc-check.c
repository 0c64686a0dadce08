/* Prints the numbers and places that tools/libc-x86-64 declares; tools/libc-check compares them with those of the machine's own headers. */
#define _XOPEN_SOURCE 700
#include <errno.h>
#include <fcntl.h>
#include <getopt.h>
#include <math.h>
#include <signal.h>
#include <stdint.h>
#include <stdio.h>
#include <stdlib.h>
#include <string.h>
#include <strings.h>
#include <sys/stat.h>
#include <time.h>
#include <unistd.h>

#define SAY(value) printf(#value " %ld\n", (long)(value))
#define PLACE(type, field) printf(#type " " #field " %ld %ld\n", (long)((char *)&it.field - (char *)&it), (long)sizeof it.field)

static void layouts(void)
{
    {
        struct stat it;
        SAY(sizeof it);
        PLACE(struct stat, st_dev);
        PLACE(struct stat, st_ino);
        PLACE(struct stat, st_mode);
        PLACE(struct stat, st_uid);
        PLACE(struct stat, st_gid);
        PLACE(struct stat, st_size);
    }
    {
        struct sigaction it;
        SAY(sizeof it);
        PLACE(struct sigaction, sa_handler);
        PLACE(struct sigaction, sa_mask);
        PLACE(struct sigaction, sa_flags);
    }
    {
        struct option it;
        SAY(sizeof it);
        PLACE(struct option, name);
        PLACE(struct option, has_arg);
        PLACE(struct option, flag);
        PLACE(struct option, val);
    }
}

static void types(void)
{
    SAY(sizeof(size_t));
    SAY(sizeof(ssize_t));
    SAY(sizeof(off_t));
    SAY(sizeof(mode_t));
    SAY(sizeof(uid_t));
    SAY(sizeof(gid_t));
    SAY(sizeof(time_t));
    SAY(sizeof(clock_t));
    SAY(sizeof(sigset_t));
    SAY(sizeof(uint64_t));
    SAY(sizeof(uint32_t));
    SAY(CLOCKS_PER_SEC);
}

static void constants(void)
{
    SAY(EPERM), SAY(ENOENT), SAY(EBADF), SAY(EINVAL), SAY(ENAMETOOLONG), SAY(ELOOP);
    SAY(O_RDONLY), SAY(O_WRONLY), SAY(O_DIRECTORY), SAY(F_GETFD), SAY(W_OK), SAY(_PC_NAME_MAX), SAY(SEEK_CUR), SAY(_IOFBF), SAY(_IOLBF);
    SAY(SIGHUP), SAY(SIGINT), SAY(SIGQUIT), SAY(SIGPIPE), SAY(SIGTERM), SAY(SIGXFSZ), SAY(SIG_BLOCK), SAY(SIG_SETMASK);
    SAY((uint32_t)SA_RESETHAND), SAY((size_t)SIG_DFL), SAY((size_t)SIG_IGN), SAY(no_argument);
    SAY(S_ISREG(0100644)), SAY(S_ISDIR(0040755)), SAY(S_ISFIFO(0010644)), SAY(S_ISLNK(0120777)), SAY(S_ISREG(0040755));
}

int main(void)
{
    layouts();
    types();
    constants();
    return 0;
}
