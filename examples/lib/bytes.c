// memcpy as common C libraries have it for a few bytes: byte by byte.

#include <stddef.h>

__attribute__((optimize("no-tree-loop-distribute-patterns")))
void *memcpy(void *to, const void *from, size_t count)
{
    for (size_t at = 0; at < count; at++)
        ((char *)to)[at] = ((const char *)from)[at];
    return to;
}
