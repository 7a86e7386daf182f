/* For the kit's compiler, which has no headers: x86-64 Linux only. */
#ifndef KIT_STRING_H
#define KIT_STRING_H
#include <stddef.h>
void *memcpy(void *to, const void *from, size_t bytes);
void *memset(void *to, int byte, size_t bytes);
int memcmp(const void *one, const void *other, size_t bytes);
#endif
