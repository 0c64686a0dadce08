/* The kit's clang comes without C headers. Those in this folder declare, for x86-64 Linux with the GNU C library, just what the C programs of this
 * repository use; numbers and the order of fields are that library's. */
#ifndef LIBC_X86_64_STDINT_H
#define LIBC_X86_64_STDINT_H
typedef signed char int8_t;
typedef unsigned char uint8_t;
typedef int int32_t;
typedef unsigned int uint32_t;
typedef long int64_t;
typedef unsigned long uint64_t;
#endif
