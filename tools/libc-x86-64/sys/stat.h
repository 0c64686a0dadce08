#ifndef LIBC_X86_64_SYS_STAT_H
#define LIBC_X86_64_SYS_STAT_H
#include <sys/types.h>
struct stat {
    dev_t st_dev;
    ino_t st_ino;
    nlink_t st_nlink;
    mode_t st_mode;
    uid_t st_uid;
    gid_t st_gid;
    int unused;
    dev_t st_rdev;
    off_t st_size;
    long times_and_blocks[11];
};
#define S_ISDIR(mode) (((mode)&0170000) == 0040000)
#define S_ISFIFO(mode) (((mode)&0170000) == 0010000)
#define S_ISLNK(mode) (((mode)&0170000) == 0120000)
#define S_ISREG(mode) (((mode)&0170000) == 0100000)
int stat(const char *, struct stat *);
int lstat(const char *, struct stat *);
int fstat(int, struct stat *);
int fchmod(int, mode_t);
mode_t umask(mode_t);
#endif
