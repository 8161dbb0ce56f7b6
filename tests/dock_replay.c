/*
 * Replays streams of frames through the C interface of include/dock.h: items on standard input, what came of each on standard output. tests/compare
 * holds it to the reference's `dock_replay`.
 *
 *   gcc -std=c99 -O2 -Iinclude tests/dock_replay.c target/staticlib/libfirmware.a -o target/dock_replay
 *
 * An item is a letter and its fields, numbers most significant byte first. Before the first, the stream is 0/0 and all lent bytes are 00.
 *
 *   N   fill 1                                          dock_start, and all lent bytes are the fill; prints `N`
 *   H   collected 2, stop 2, lent bytes 1563            value and lent bytes as they are given; prints `H`
 *   P   length 2, piece                                 feeds the piece until all of it is taken, an empty one once; for each call prints
 *                                                       `P taken collected stop kind size ADLER BODY`: decimals, then the Adler-32 of all lent bytes
 *                                                       and the body in hex
 *   W   kind 1, room length 2, room, body length 2,     writes a frame of kind 01 or 02; prints `W number ROOM`: the whole room in hex
 *       body
 *
 * An unknown letter, another kind of W, a room or a body above 4,096 bytes and an item cut short print `bad` and end the run.
 *
 * Each buffer that is lent has exactly its size on the heap, so that valgrind sees a step outside.
 */
#include <stdbool.h>
#include <stdio.h>
#include <stdlib.h>
#include <string.h>

#include "dock.h"

enum {
    LONGEST_PIECE = 65535,
    LONGEST = 4096, /* of a room or a body */
    ADLER_MODULUS = 65521
};

typedef struct buffer {
    uint8_t *bytes;
    size_t length;
} buffer;

/* The stream: its value, and the bytes that it is lent. */
static dock_stream stream;
static buffer frame;

/* Buffers. */

static void fail(const char *why)
{
    fflush(stdout);
    fprintf(stderr, "dock_replay: %s\n", why);
    exit(2);
}

static buffer make_buffer(size_t length)
{
    buffer made = {malloc(length), length};
    if (made.bytes == NULL && length != 0)
        fail("out of memory");
    return made;
}

/* Input. */

static bool read_bytes(uint8_t *bytes, size_t length)
{
    return fread(bytes, 1, length, stdin) == length;
}

static bool read_number(size_t *number)
{
    uint8_t bytes[2];
    if (!read_bytes(bytes, sizeof bytes))
        return false;
    *number = (size_t)bytes[0] << 8 | bytes[1];
    return true;
}

/* A length, then that many bytes, at most `limit`. Holds no memory if it fails. */
static bool read_buffer(size_t limit, buffer *read)
{
    size_t length;
    if (!read_number(&length) || length > limit)
        return false;
    *read = make_buffer(length);
    if (read_bytes(read->bytes, length))
        return true;
    free(read->bytes);
    return false;
}

/* Output. */

static void put_hex(const uint8_t *bytes, size_t length)
{
    static const char digits[] = "0123456789ABCDEF";
    for (size_t i = 0; i < length; i++) {
        putchar(digits[bytes[i] >> 4]);
        putchar(digits[bytes[i] & 0x0F]);
    }
}

/* The Adler-32 of the lent bytes: they are too few for a sum to wrap. */
static unsigned long sum_of_frame(void)
{
    unsigned long low = 1;
    unsigned long high = 0;
    for (size_t i = 0; i < frame.length; i++) {
        low += frame.bytes[i];
        high += low;
    }
    return high % ADLER_MODULUS << 16 | low % ADLER_MODULUS;
}

static void put_fed(dock_fed fed)
{
    printf("P %zu %u %u %u %u %08lX ", fed.taken, (unsigned)fed.stream.collected, (unsigned)fed.stream.stop, (unsigned)fed.kind,
        (unsigned)fed.size, sum_of_frame());
    if (fed.size > DOCK_LONGEST_BODY)
        fail("a body is larger than the largest");
    put_hex(frame.bytes + DOCK_HEAD, fed.size);
    putchar('\n');
}

/* Items: each is taken, or is not in form. */

static bool take_start(void)
{
    int fill = getchar();
    if (fill == EOF)
        return false;
    stream = dock_start();
    memset(frame.bytes, fill, frame.length);
    puts("N");
    return true;
}

static bool take_stream(void)
{
    size_t collected;
    size_t stop;
    if (!read_number(&collected) || !read_number(&stop) || !read_bytes(frame.bytes, frame.length))
        return false;
    stream.collected = (uint16_t)collected;
    stream.stop = (uint16_t)stop;
    puts("H");
    return true;
}

/* One call, and how many bytes it took: of a piece that has any, at least one. */
static size_t feed(const uint8_t *piece, size_t length)
{
    dock_fed fed = dock_feed(stream, (dock_frame *)frame.bytes, piece, length);
    stream = fed.stream;
    put_fed(fed);
    if (fed.taken > length || (fed.taken == 0 && length > 0))
        fail("a call took no byte, or more than there are");
    return fed.taken;
}

static bool take_piece(void)
{
    buffer piece;
    size_t at = 0;
    if (!read_buffer(LONGEST_PIECE, &piece))
        return false;
    do
        at += feed(piece.bytes + at, piece.length - at);
    while (at < piece.length);
    free(piece.bytes);
    return true;
}

static void write_frame(int kind, buffer room, buffer body)
{
    uint8_t number = (kind == DOCK_COMMAND ? dock_write_command : dock_write_response)(body.bytes, body.length, room.bytes, room.length);
    printf("W %u ", (unsigned)number);
    put_hex(room.bytes, room.length);
    putchar('\n');
}

static bool take_write(void)
{
    buffer room;
    buffer body;
    int kind = getchar();
    if ((kind != DOCK_COMMAND && kind != DOCK_RESPONSE) || !read_buffer(LONGEST, &room))
        return false;
    bool whole = read_buffer(LONGEST, &body);
    if (whole) {
        write_frame(kind, room, body);
        free(body.bytes);
    }
    free(room.bytes);
    return whole;
}

static bool take_item(int letter)
{
    switch (letter) {
    case 'N':
        return take_start();
    case 'H':
        return take_stream();
    case 'P':
        return take_piece();
    case 'W':
        return take_write();
    default:
        return false;
    }
}

static void replay(void)
{
    int letter;
    while ((letter = getchar()) != EOF) {
        if (!take_item(letter)) {
            puts("bad");
            return;
        }
    }
}

int main(void)
{
    static char input[1 << 16];
    static char output[1 << 16];
    setvbuf(stdin, input, _IOFBF, sizeof input);
    setvbuf(stdout, output, _IOFBF, sizeof output);
    frame = make_buffer(DOCK_LONGEST_FRAME);
    memset(frame.bytes, 0, frame.length);
    replay();
    free(frame.bytes);
    return fflush(stdout) == 0 && !ferror(stdout) ? 0 : 1;
}
