#ifndef LIBC_X86_64_TIME_H
#define LIBC_X86_64_TIME_H
typedef long clock_t, time_t;
#define CLOCKS_PER_SEC 1000000L
clock_t clock(void);
time_t time(time_t *);
#endif
