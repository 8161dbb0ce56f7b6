/* Of string.h, what the harness uses: there is no C library on the device. */
#ifndef SUPPORT_H
#define SUPPORT_H

#include <stddef.h>

void *memcpy(void *to, const void *from, size_t length);
void *memset(void *to, int value, size_t length);
int memcmp(const void *a, const void *b, size_t length);

#endif
