/*
 * The functions on text and bytes that are used here, as the C library of the kit has them, for what is compiled with the
 * kit's clang: the kit has no headers.
 */
#ifndef TOOLS_STDIO_H
#define TOOLS_STDIO_H

#include <stddef.h>

typedef struct _IO_FILE FILE;

extern FILE *stdin;
extern FILE *stdout;
extern FILE *stderr;

#define EOF (-1)

FILE *fopen(const char *name, const char *mode);
int fclose(FILE *file);
int getchar(void);
size_t fread(void *to, size_t size, size_t count, FILE *file);
size_t fwrite(const void *from, size_t size, size_t count, FILE *file);
int fputc(int character, FILE *file);
int puts(const char *text);
int printf(const char *format, ...);
int fprintf(FILE *file, const char *format, ...);
int fflush(FILE *file);
int ferror(FILE *file);

#endif
