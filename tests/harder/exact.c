/*
 * Loans of exactly their size: each run is lent in a block of memory of its own that has not a byte more, so that a tool that
 * watches memory sees the first number outside it that is read or written.
 */
#include "../second/relay.h"

#include <stdlib.h>
#include <string.h>

enum { NO_MEMORY = 3 };

void *lend(int loan, void *run, size_t bytes)
{
    (void)loan;
    /* Of no bytes too a pointer is owed that is not null; the C libraries of Linux give one. */
    void *lent = malloc(bytes);
    if (lent == NULL)
        end(NO_MEMORY);
    return memcpy(lent, run, bytes);
}

void take_back(void *lent, void *run, size_t bytes)
{
    memcpy(run, lent, bytes);
    free(lent);
}
