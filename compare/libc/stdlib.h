#ifndef LIBC_STDLIB_H
#define LIBC_STDLIB_H

#include <stddef.h>

void *malloc(size_t);
void free(void *);
void abort(void);
void exit(int);
long strtol(const char *, char **, int);
unsigned long long strtoull(const char *, char **, int);

#endif
