// memcpy and memmove that copy words where both places allow it, so that function pointers in structs are copied whole.
// Many C libraries copy a few bytes one by one: the halves of an address that is moved so can't be followed, and `watch`
// breaks with `fragment`. Link this file ahead of the C library. It is small rather than fast.

#include <stddef.h>
#include <stdint.h>

static int are_words(const void *to, const void *from)
{
    return (((uintptr_t)to | (uintptr_t)from) & 3) == 0;
}

// -fno-tree-loop-distribute-patterns keeps the compiler from making a call of memcpy of these loops.
__attribute__((optimize("no-tree-loop-distribute-patterns")))
void *memcpy(void *to, const void *from, size_t count)
{
    size_t at = 0;
    if (are_words(to, from))
        for (; at + 4 <= count; at += 4)
            *(uint32_t *)((char *)to + at) = *(const uint32_t *)((const char *)from + at);
    for (; at < count; at++)
        ((char *)to)[at] = ((const char *)from)[at];
    return to;
}

__attribute__((optimize("no-tree-loop-distribute-patterns")))
void *memmove(void *to, const void *from, size_t count)
{
    if ((uintptr_t)to - (uintptr_t)from >= count)
        return memcpy(to, from, count);
    if (are_words(to, from)) {
        for (; count & 3; count--)
            ((char *)to)[count - 1] = ((const char *)from)[count - 1];
        for (; count; count -= 4)
            *(uint32_t *)((char *)to + count - 4) = *(const uint32_t *)((const char *)from + count - 4);
    }
    for (; count; count--)
        ((char *)to)[count - 1] = ((const char *)from)[count - 1];
    return to;
}
