/* The toolchain's C compiler comes without headers: the few functions of the C library that our programs call. */
#ifndef STRING_H
#define STRING_H

#include <stddef.h>

void *memcpy(void *to, const void *from, size_t count);

#endif
