#ifndef LIBC_X86_64_STRINGS_H
#define LIBC_X86_64_STRINGS_H
int strcasecmp(const char *, const char *);
#endif
