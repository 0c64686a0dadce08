#ifndef LIBC_X86_64_STDARG_H
#define LIBC_X86_64_STDARG_H
typedef __builtin_va_list va_list;
#define va_start(list, last) __builtin_va_start(list, last)
#define va_end(list) __builtin_va_end(list)
#endif
