/*
 * What a freestanding compiler may call, memmove too: by words where both sides are aligned, else by bytes. The figures of the library include them.
 */
#include "support.h"

#include <stdint.h>

void *memmove(void *to, const void *from, size_t length);

/* The words of a type that may stand for any bytes. */
typedef uint32_t __attribute__((may_alias)) word;

static int aligned(const void *a, const void *b)
{
    return (((uintptr_t)a | (uintptr_t)b) & (sizeof(word) - 1)) == 0;
}

void *memcpy(void *to, const void *from, size_t length)
{
    size_t i = 0;
    if (aligned(to, from))
        for (; i + sizeof(word) <= length; i += sizeof(word))
            *(word *)((uint8_t *)to + i) = *(const word *)((const uint8_t *)from + i);
    for (; i < length; i++)
        ((uint8_t *)to)[i] = ((const uint8_t *)from)[i];
    return to;
}

void *memmove(void *to, const void *from, size_t length)
{
    if ((uintptr_t)to <= (uintptr_t)from)
        return memcpy(to, from, length);
    while (length-- > 0)
        ((uint8_t *)to)[length] = ((const uint8_t *)from)[length];
    return to;
}

void *memset(void *to, int value, size_t length)
{
    size_t i = 0;
    if (aligned(to, to))
        for (; i + sizeof(word) <= length; i += sizeof(word))
            *(word *)((uint8_t *)to + i) = (uint8_t)value * 0x01010101U;
    for (; i < length; i++)
        ((uint8_t *)to)[i] = (uint8_t)value;
    return to;
}

int memcmp(const void *a, const void *b, size_t length)
{
    size_t i = 0;
    if (aligned(a, b))
        while (i + sizeof(word) <= length && *(const word *)((const uint8_t *)a + i) == *(const word *)((const uint8_t *)b + i))
            i += sizeof(word);
    for (; i < length; i++)
        if (((const uint8_t *)a)[i] != ((const uint8_t *)b)[i])
            return ((const uint8_t *)a)[i] - ((const uint8_t *)b)[i];
    return 0;
}
