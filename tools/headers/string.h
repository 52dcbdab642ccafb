/* The functions on bytes and text that are used here, for what is compiled with the kit's clang: the kit has no headers. */
#ifndef TOOLS_STRING_H
#define TOOLS_STRING_H

#include <stddef.h>

void *memcpy(void *to, const void *from, size_t size);
void *memmove(void *to, const void *from, size_t size);
void *memset(void *to, int byte, size_t size);
int memcmp(const void *one, const void *other, size_t size);
void *memchr(const void *bytes, int byte, size_t size);
size_t strlen(const char *text);
char *strchr(const char *text, int character);
char *strerror(int number);

#endif
