/*
 * The stream, printing and the end of a run by semihosting: the stream is the file `stream` in the folder that QEMU runs in, a FIFO as well.
 */
#include "semihosting.h"

#include "machine.h"
#include "support.h"

enum {
    OPEN = 0x01,
    WRITE_TEXT = 0x04,
    READ = 0x06,
    LEAVE = 0x20,
    READ_BINARY = 1,            /* a mode of OPEN */
    APPLICATION_EXIT = 0x20026, /* a reason of LEAVE */
    BUFFER = 65536
};

static uint8_t buffer[BUFFER];
static size_t at, end;
static uint32_t file;
static bool opened;

void machine_print(const char *text)
{
    semihost(WRITE_TEXT, text);
}

void machine_leave(int status)
{
    const uint32_t block[] = {APPLICATION_EXIT, (uint32_t)status};
    for (;;)
        semihost(LEAVE, block);
}

static void open_stream(void)
{
    static const char name[] = "stream";
    const uint32_t block[] = {(uint32_t)(uintptr_t)name, READ_BINARY, sizeof name - 1};
    file = semihost(OPEN, block);
    opened = true;
    if (file == UINT32_MAX) {
        machine_print("the file `stream` cannot be opened\n");
        machine_leave(2);
    }
}

/* A read may be short. Its answer is how many bytes were not read: all of them at the end. */
static bool fill(void)
{
    const uint32_t block[] = {file, (uint32_t)(uintptr_t)buffer, BUFFER};
    uint32_t missing = semihost(READ, block);
    at = 0;
    end = missing > BUFFER ? 0 : BUFFER - missing;
    return end != 0;
}

bool machine_read(void *into, size_t length)
{
    uint8_t *to = into;
    if (!opened)
        open_stream();
    while (length > 0) {
        if (at == end && !fill())
            return false;
        size_t part = end - at < length ? end - at : length;
        memcpy(to, buffer + at, part);
        to += part;
        at += part;
        length -= part;
    }
    return true;
}
