/* Memory, and the end of a program, for what is compiled with the kit's clang: the kit has no headers. */
#ifndef TOOLS_STDLIB_H
#define TOOLS_STDLIB_H

#include <stddef.h>

void *realloc(void *memory, size_t size);
void free(void *memory);
_Noreturn void exit(int status);

#endif
