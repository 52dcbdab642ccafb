/* The latest error, as the C library of the kit has it, for what is compiled with the kit's clang: the kit has no headers. */
#ifndef TOOLS_ERRNO_H
#define TOOLS_ERRNO_H

int *__errno_location(void);

#define errno (*__errno_location())

#endif
