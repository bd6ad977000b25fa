/* What the example programs need of C's library in WebAssembly; run.js has the functions. */
#ifndef STDIO_H
#define STDIO_H

#include <stddef.h>

typedef struct file FILE;
#define stdout ((FILE *)0)
enum { _IOLBF };

int printf(const char *format, ...);
int puts(const char *line);
int putchar(int character);
int setvbuf(FILE *file, char *buffer, int mode, size_t bytes);
FILE *fopen(const char *name, const char *mode);
size_t fread(void *items, size_t bytes, size_t count, FILE *file);
size_t fwrite(const void *items, size_t bytes, size_t count, FILE *file);
int fclose(FILE *file);

#endif
