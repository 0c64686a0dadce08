#ifndef LIBC_X86_64_MATH_H
#define LIBC_X86_64_MATH_H
double sqrt(double);
#endif
