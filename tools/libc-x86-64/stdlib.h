#ifndef LIBC_X86_64_STDLIB_H
#define LIBC_X86_64_STDLIB_H
#include <stddef.h>
void *malloc(size_t);
void *calloc(size_t, size_t);
void *realloc(void *, size_t);
void free(void *);
void exit(int);
int mkstemp(char *);
void qsort(void *, size_t, size_t, int (*)(const void *, const void *));
unsigned long strtoul(const char *, char **, int);
#endif
