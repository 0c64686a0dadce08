#ifndef LIBC_X86_64_STDDEF_H
#define LIBC_X86_64_STDDEF_H
typedef unsigned long size_t;
#define NULL ((void *)0)
#endif
