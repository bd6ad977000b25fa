/* What the example programs need of C's library in WebAssembly; run.js has the functions. */
#ifndef STDLIB_H
#define STDLIB_H

#include <stddef.h>

_Noreturn void exit(int status);
void *malloc(size_t bytes);
void free(void *memory);

#endif
