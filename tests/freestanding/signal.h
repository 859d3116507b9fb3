/* What the harness needs of <signal.h>, as x86-64 Linux has it, for the kit's compiler, which comes with no headers. */
#ifndef FREESTANDING_SIGNAL_H
#define FREESTANDING_SIGNAL_H

#define SIGSEGV 11
#define SIG_DFL ((void (*)(int))0)
#define SA_SIGINFO 4

typedef struct {
    int si_signo;
    int si_errno;
    int si_code;
    int padding;
    void *si_addr;
} siginfo_t;

struct sigaction {
    void (*sa_sigaction)(int number, siginfo_t *info, void *context);
    unsigned long sa_mask[16];
    int sa_flags;
    void (*sa_restorer)(void);
};

int sigaction(int number, const struct sigaction *action, struct sigaction *before);
void (*signal(int number, void (*handler)(int)))(int);

#endif
