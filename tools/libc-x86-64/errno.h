#ifndef LIBC_X86_64_ERRNO_H
#define LIBC_X86_64_ERRNO_H
int *__errno_location(void);
#define errno (*__errno_location())
#define EPERM 1
#define ENOENT 2
#define EBADF 9
#define EINVAL 22
#define ENAMETOOLONG 36
#define ELOOP 40
#endif
