/*
 * The one function that the library wants from outside, for programs that are
 * linked without a C library.  Compile it with -ffreestanding
 * -fno-tree-loop-distribute-patterns, or the loop becomes a call of memset.
 */
#include <stddef.h>

void *memset(void *start, int value, size_t count);

void *memset(void *start, int value, size_t count)
{
    unsigned char *at = start;
    while (count-- > 0)
        *at++ = (unsigned char)value;
    return start;
}
