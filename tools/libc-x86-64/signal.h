#ifndef LIBC_X86_64_SIGNAL_H
#define LIBC_X86_64_SIGNAL_H
#define SIGHUP 1
#define SIGINT 2
#define SIGQUIT 3
#define SIGPIPE 13
#define SIGTERM 15
#define SIGXFSZ 25
#define SIG_DFL ((void (*)(int))0)
#define SIG_IGN ((void (*)(int))1)
#define SIG_BLOCK 0
#define SIG_SETMASK 2
#define SA_RESETHAND ((int)0x80000000)
typedef struct {
    unsigned long words[16];
} sigset_t;
struct sigaction {
    void (*sa_handler)(int);
    sigset_t sa_mask;
    int sa_flags;
    void (*sa_restorer)(void);
};
int sigemptyset(sigset_t *);
int sigaddset(sigset_t *, int);
int sigaction(int, const struct sigaction *, struct sigaction *);
int sigprocmask(int, const sigset_t *, sigset_t *);
int raise(int);
void (*signal(int, void (*)(int)))(int);
#endif
