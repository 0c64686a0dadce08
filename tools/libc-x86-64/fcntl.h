#ifndef LIBC_X86_64_FCNTL_H
#define LIBC_X86_64_FCNTL_H
#define O_RDONLY 0
#define O_WRONLY 1
#define O_DIRECTORY 0x10000
#define F_GETFD 1
int open(const char *, int, ...);
int fcntl(int, int, ...);
#endif
