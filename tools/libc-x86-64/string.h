#ifndef LIBC_X86_64_STRING_H
#define LIBC_X86_64_STRING_H
#include <stddef.h>
void *memcpy(void *, const void *, size_t);
int memcmp(const void *, const void *, size_t);
void *memset(void *, int, size_t);
int strcmp(const char *, const char *);
size_t strlen(const char *);
char *strrchr(const char *, int);
char *strerror(int);
#endif
