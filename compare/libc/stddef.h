/* These few headers stand in for the C library's, which a machine that is no x86-64 need not have for x86-64. */
#ifndef LIBC_STDDEF_H
#define LIBC_STDDEF_H

typedef __SIZE_TYPE__ size_t;
#define NULL ((void *)0)
#define offsetof(type, member) __builtin_offsetof(type, member)

#endif
