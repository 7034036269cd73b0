/* What the compiler itself may call, for programs without a C library; string.c has it. A program that is linked with
   picolibc has all of the standard header of this name instead. */
#ifndef COYOTOS_STRING_H
#define COYOTOS_STRING_H

#include <stddef.h>

void *memcpy(void *restrict to, const void *restrict from, size_t size);
void *memmove(void *to, const void *from, size_t size);
void *memset(void *to, int byte, size_t size);
int memcmp(const void *one, const void *other, size_t size);
size_t strlen(const char *text);

#endif
