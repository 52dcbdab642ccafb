/* Lengths and positions in C, for what is compiled with the kit's clang: the kit has no headers. */
#ifndef TOOLS_STDDEF_H
#define TOOLS_STDDEF_H

typedef __SIZE_TYPE__ size_t;

#define NULL ((void *)0)
#define offsetof(type, member) __builtin_offsetof(type, member)

#endif
