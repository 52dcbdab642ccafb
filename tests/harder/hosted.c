/*
 * The part of a relay that has a C library: where the program starts, its pipes and its end. What memory it lends stands in
 * exact.c or in fenced.c. The end is that of a C program, at which tools that watch memory tell what was never given back.
 */
#include "../second/relay.h"

#include <errno.h>
#include <stdlib.h>
#include <unistd.h>

_Noreturn void end(int status)
{
    exit(status);
}

size_t read_some(unsigned char *to, size_t size)
{
    ssize_t got;
    do
        got = read(STDIN_FILENO, to, size);
    while (got < 0 && errno == EINTR);
    if (got < 0)
        end(NO_PIPE);
    return (size_t)got;
}

void write_all(const unsigned char *from, size_t size)
{
    while (size > 0) {
        ssize_t gone = write(STDOUT_FILENO, from, size);
        if (gone < 0 && errno == EINTR)
            continue;
        if (gone <= 0)
            end(NO_PIPE);
        from += gone;
        size -= (size_t)gone;
    }
}

int main(void)
{
    relay();
}
