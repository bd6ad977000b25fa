/* Stands in for pages where there are none: memory from malloc, which nothing guards. */
#ifndef SYS_MMAN_H
#define SYS_MMAN_H

#include <stdlib.h>

enum { PROT_NONE, PROT_READ, PROT_WRITE, MAP_PRIVATE = 0, MAP_ANONYMOUS = 0 };
#define MAP_FAILED NULL

static inline void *mmap(void *at, size_t bytes, int access, int kind, int file, long from)
{
    (void)at, (void)access, (void)kind, (void)file, (void)from;
    return malloc(bytes);
}

static inline int mprotect(void *at, size_t bytes, int access)
{
    (void)at, (void)bytes, (void)access;
    return 0;
}

#endif
