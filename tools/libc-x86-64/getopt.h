#ifndef LIBC_X86_64_GETOPT_H
#define LIBC_X86_64_GETOPT_H
struct option {
    const char *name;
    int has_arg;
    int *flag;
    int val;
};
#define no_argument 0
extern int optind;
int getopt_long(int, char *const *, const char *, const struct option *, int *);
#endif
