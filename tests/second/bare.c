/*
 * The part of the relay that is without a C library, so that running it takes an emulator and nothing else: system calls
 * and where the program starts. What is lent is the frame itself, so whatever a call writes, allowed or not, shows in the
 * reply.
 */
#include "relay.h"

#include <stdint.h>
#include <string.h>

enum { SYSTEM_READ = 0, SYSTEM_WRITE = 1, SYSTEM_EXIT = 231 };
enum { STANDARD_INPUT = 0, STANDARD_OUTPUT = 1, INTERRUPTED = -4 };

/* ---- What a C library would give, to the library under check as well ---- */

void *memcpy(void *to, const void *from, size_t size)
{
    for (size_t i = 0; i < size; i++)
        ((unsigned char *)to)[i] = ((const unsigned char *)from)[i];
    return to;
}

void *memmove(void *to, const void *from, size_t size)
{
    if ((uintptr_t)to <= (uintptr_t)from)
        return memcpy(to, from, size);
    while (size-- > 0)
        ((unsigned char *)to)[size] = ((const unsigned char *)from)[size];
    return to;
}

void *memset(void *to, int byte, size_t size)
{
    for (size_t i = 0; i < size; i++)
        ((unsigned char *)to)[i] = (unsigned char)byte;
    return to;
}

int memcmp(const void *one, const void *other, size_t size)
{
    const unsigned char *a = one, *b = other;
    for (size_t i = 0; i < size; i++)
        if (a[i] != b[i])
            return a[i] < b[i] ? -1 : 1;
    return 0;
}

static long system_call(long number, long a, long b, long c)
{
    long result;
    __asm__ volatile("syscall" : "=a"(result) : "a"(number), "D"(a), "S"(b), "d"(c) : "rcx", "r11", "memory");
    return result;
}

_Noreturn void end(int status)
{
    for (;;)
        system_call(SYSTEM_EXIT, status, 0, 0);
}

size_t read_some(unsigned char *to, size_t size)
{
    long got;
    do
        got = system_call(SYSTEM_READ, STANDARD_INPUT, (long)to, (long)size);
    while (got == INTERRUPTED);
    if (got < 0)
        end(NO_PIPE);
    return (size_t)got;
}

void write_all(const unsigned char *from, size_t size)
{
    while (size > 0) {
        long gone = system_call(SYSTEM_WRITE, STANDARD_OUTPUT, (long)from, (long)size);
        if (gone == INTERRUPTED)
            continue;
        if (gone <= 0)
            end(NO_PIPE);
        from += gone;
        size -= (size_t)gone;
    }
}

void *lend(int loan, void *run, size_t bytes)
{
    (void)loan, (void)bytes;
    return run;
}

void take_back(void *lent, void *run, size_t bytes)
{
    (void)lent, (void)run, (void)bytes;
}

/* Where the program starts: a call of relay with the stack as the C calling convention wants it. */
__asm__(".globl _start\n"
        "_start:\n"
        "    xorl %ebp, %ebp\n"
        "    andq $-16, %rsp\n"
        "    call relay\n");
