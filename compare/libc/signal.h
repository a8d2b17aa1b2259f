#ifndef LIBC_SIGNAL_H
#define LIBC_SIGNAL_H

#define SIGBUS 7
#define SIGFPE 8
#define SIGSEGV 11

void (*signal(int, void (*)(int)))(int);

#endif
