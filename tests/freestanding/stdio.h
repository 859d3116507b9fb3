/* What the examples need of <stdio.h>, for the kit's compiler, which comes with no headers. */
#ifndef FREESTANDING_STDIO_H
#define FREESTANDING_STDIO_H

#include <stddef.h>

typedef struct file FILE;

FILE *fopen(const char *name, const char *mode);
size_t fread(void *to, size_t size, size_t count, FILE *file);
int printf(const char *format, ...);

#endif
