/*
 * The two parts of a relay program. relay.c has the frames and the calls. The other part starts it, gives it its pipes and
 * decides what memory the runs of numbers are lent in: bare.c, which needs no C library, or those of tests/harder.
 */
#ifndef SECOND_RELAY_H
#define SECOND_RELAY_H

#include <stddef.h>

/* How a relay ends. */
enum { ALL_SERVED = 0, MALFORMED = 1, NO_PIPE = 2 };

/* The runs that are lent to one call. */
enum { ANSWER_LOAN, BUFFER_LOAN, FIRST_LOAN, SECOND_LOAN, LOANS };

/* In relay.c: answers all requests, and ends the program. */
_Noreturn void relay(void);

/* ---- In the other part, which also has or links memcpy and memmove ---- */

_Noreturn void end(int status);

/* Waits for input; gives how many bytes came, 0 at its end. */
size_t read_some(unsigned char *to, size_t size);

void write_all(const unsigned char *from, size_t size);

/* Gives the memory to lend for a run of the frame: the run itself, or a copy of it. It is aligned as the run's numbers need;
 * bytes need no alignment. */
void *lend(int loan, void *run, size_t bytes);

/* Ends a loan: what the call left in the lent memory now stands in the run. */
void take_back(void *lent, void *run, size_t bytes);

#endif
