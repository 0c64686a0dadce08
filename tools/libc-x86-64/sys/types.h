#ifndef LIBC_X86_64_SYS_TYPES_H
#define LIBC_X86_64_SYS_TYPES_H
#include <stddef.h>
typedef unsigned long dev_t, ino_t, nlink_t;
typedef unsigned int mode_t, uid_t, gid_t;
typedef long off_t, ssize_t;
#endif
