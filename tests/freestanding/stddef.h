/* What the layer's header needs of <stddef.h>, for the kit's compiler, which comes with no headers. */
#ifndef FREESTANDING_STDDEF_H
#define FREESTANDING_STDDEF_H

typedef __SIZE_TYPE__ size_t;

#define NULL ((void *)0)

#endif
