#ifndef LIBC_X86_64_UNISTD_H
#define LIBC_X86_64_UNISTD_H
#include <sys/types.h>
#define W_OK 2
#define _PC_NAME_MAX 3
int access(const char *, int);
int close(int);
int fchown(int, uid_t, gid_t);
int fsync(int);
int isatty(int);
off_t lseek(int, off_t, int);
long pathconf(const char *, int);
ssize_t readlink(const char *, char *, size_t);
void sync(void);
int unlink(const char *);
#endif
