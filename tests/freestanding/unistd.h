/* What the harness needs of <unistd.h>, for the kit's compiler, which comes with no headers. */
#ifndef FREESTANDING_UNISTD_H
#define FREESTANDING_UNISTD_H

#include <stddef.h>

long read(int file, void *to, size_t most);
long write(int file, const void *from, size_t most);
void _exit(int status);

#endif
