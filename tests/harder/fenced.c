/*
 * Loans between fences: each run is lent on a strip of memory of its own, between two pages that can be neither read nor
 * written. It lies against the end of the strip and, the next time, against its start. So the first number outside it that
 * is touched on that side ends the program with a signal, whatever code touches it, and at full speed.
 */
#define _DEFAULT_SOURCE
#include "../second/relay.h"

#include <string.h>
#include <sys/mman.h>

/* Longer than the longest run that relay.c takes, and a multiple of the size of a page, as a fence is. */
enum { STRIP_BYTES = 1 << 24, FENCE_BYTES = 1 << 16 };
enum { NO_MEMORY = 3 };

static unsigned char *strips[LOANS];
static unsigned long loans_made[LOANS];

static unsigned char *new_strip(void)
{
    size_t bytes = FENCE_BYTES + STRIP_BYTES + FENCE_BYTES;
    unsigned char *fence = mmap(NULL, bytes, PROT_NONE, MAP_PRIVATE | MAP_ANONYMOUS, -1, 0);
    if (fence == MAP_FAILED || mprotect(fence + FENCE_BYTES, STRIP_BYTES, PROT_READ | PROT_WRITE) != 0)
        end(NO_MEMORY);
    return fence + FENCE_BYTES;
}

void *lend(int loan, void *run, size_t bytes)
{
    if (strips[loan] == NULL)
        strips[loan] = new_strip();
    unsigned char *lent = strips[loan];
    if (loans_made[loan]++ % 2 == 0)
        lent += STRIP_BYTES - bytes;
    return memcpy(lent, run, bytes);
}

void take_back(void *lent, void *run, size_t bytes)
{
    memcpy(run, lent, bytes);
}
