/* What the harness needs of <sys/mman.h>, for the kit's compiler, which comes with no headers. */
#ifndef FREESTANDING_SYS_MMAN_H
#define FREESTANDING_SYS_MMAN_H

#include <stddef.h>

#define PROT_NONE 0
#define PROT_READ 1
#define PROT_WRITE 2
#define MAP_PRIVATE 0x02
#define MAP_ANONYMOUS 0x20
#define MAP_NORESERVE 0x4000
#define MAP_FAILED ((void *)-1)

void *mmap(void *at, size_t length, int rights, int kind, int file, long offset);
int mprotect(void *at, size_t length, int rights);

#endif
