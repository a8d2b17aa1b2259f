#ifndef LIBC_STDIO_H
#define LIBC_STDIO_H

#include <stddef.h>

typedef struct _IO_FILE FILE;

extern FILE *stdin, *stderr;

FILE *fopen(const char *, const char *);
int fclose(FILE *);
size_t fread(void *, size_t, size_t, FILE *);
int printf(const char *, ...);
int fprintf(FILE *, const char *, ...);
int putchar(int);
int sprintf(char *, const char *, ...);

#endif
