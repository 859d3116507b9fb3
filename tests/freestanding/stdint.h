/* What the layer's header needs of <stdint.h>, for the kit's compiler, which comes with no headers. */
#ifndef FREESTANDING_STDINT_H
#define FREESTANDING_STDINT_H

typedef __UINT8_TYPE__ uint8_t;
typedef __UINT32_TYPE__ uint32_t;
typedef __UINT64_TYPE__ uint64_t;
typedef __INT64_TYPE__ int64_t;

#define INT64_C(number) number##L

#endif
