/* The kit's clang comes without its headers. A toolchain of your own has this one and stddef.h. */
#ifndef STDINT_H
#define STDINT_H

typedef __UINT8_TYPE__ uint8_t;
typedef __UINT16_TYPE__ uint16_t;
typedef __UINT32_TYPE__ uint32_t;
typedef __UINT64_TYPE__ uint64_t;

#define SIZE_MAX __SIZE_MAX__

#endif
