/*
 * Replays whole cases through the C interface: stores, sessions, rooms and commands on standard input, what came of each on standard output, in
 * the form that reference/README.md gives ("Replay format"). tests/compare holds it to the reference's `replay`.
 *
 *   gcc -std=c99 -O2 -Iinclude tests/replay.c target/staticlib/libfirmware.a -o target/replay
 *
 * usage: replay          each command by element_execute
 *        replay run      each command by element_run, as a list of one
 *
 * Each buffer that is lent has exactly its size on the heap, so that valgrind sees a step outside.
 */
#include <stdio.h>
#include <stdlib.h>
#include <string.h>

#include "element.h"

enum {
    LARGEST_BUFFER = 20000, /* of a store or factory buffer */
    LONGEST = 4096,         /* of a room or command */
    LINE = 2 * LARGEST_BUFFER + 100,
    FACTORY_FILL = 0xEE,
    ADLER_MODULUS = 65521,
    ADLER_PART = 5552 /* so many bytes keep both sums below 32 bits */
};

typedef struct buffer {
    uint8_t *bytes;
    size_t length;
} buffer;

/* The present store and session, and the byte that a case gave for opened. */
static buffer store;
static element_session session;
static uint8_t opened_given;
static bool by_run;

/* The line to print, and how much of it stands. */
static char line[LINE];
static size_t end;

/* Buffers. */

static buffer make_buffer(size_t length)
{
    buffer made = {malloc(length), length};
    if (made.bytes == NULL && length != 0) {
        fputs("out of memory\n", stderr);
        exit(2);
    }
    return made;
}

static void replace_store(buffer next)
{
    free(store.bytes);
    store = next;
}

/* Input. */

static bool read_bytes(uint8_t *bytes, size_t length)
{
    return fread(bytes, 1, length, stdin) == length;
}

static bool read_number(size_t size, size_t *number)
{
    uint8_t bytes[4];
    if (!read_bytes(bytes, size))
        return false;
    *number = 0;
    for (size_t i = 0; i < size; i++)
        *number = *number << 8 | bytes[i];
    return true;
}

/* A length of `size` bytes, then that many bytes, at most `limit`. Holds no memory if it fails. */
static bool read_buffer(size_t size, size_t limit, buffer *read)
{
    size_t length;
    if (!read_number(size, &length) || length > limit)
        return false;
    *read = make_buffer(length);
    if (read_bytes(read->bytes, length))
        return true;
    free(read->bytes);
    return false;
}

/* Output. */

static void put_char(char c)
{
    line[end++] = c;
}

static void put_hex(const uint8_t *bytes, size_t length)
{
    static const char digits[] = "0123456789ABCDEF";
    for (size_t i = 0; i < length; i++) {
        put_char(digits[bytes[i] >> 4]);
        put_char(digits[bytes[i] & 0x0F]);
    }
}

static void put_sum(buffer b)
{
    uint32_t low = 1;
    uint32_t high = 0;
    for (size_t at = 0; at < b.length;) {
        size_t stop = b.length - at > ADLER_PART ? at + ADLER_PART : b.length;
        for (; at < stop; at++) {
            low += b.bytes[at];
            high += low;
        }
        low %= ADLER_MODULUS;
        high %= ADLER_MODULUS;
    }
    const uint8_t sum[] = {(uint8_t)(high >> 8), (uint8_t)high, (uint8_t)(low >> 8), (uint8_t)low};
    put_hex(sum, sizeof sum);
}

/* The byte given for open is kept for as long as it is open, and counts as 01; the library itself writes 00 and 01 only. */
static uint8_t opened_shown(void)
{
    return session.opened == opened_given && opened_given != 0 ? 1 : session.opened;
}

static void put_session(void)
{
    const uint8_t bytes[] = {opened_shown(), session.lcsg, session.lcsa, session.error};
    put_hex(bytes, sizeof bytes);
}

static void begin_line(char letter)
{
    end = 0;
    put_char(letter);
    put_char(' ');
}

static void end_line(void)
{
    put_char('\n');
    fwrite(line, 1, end, stdout);
}

/* Items: each is taken, or is not in form. */

static bool take_store(void)
{
    buffer next;
    uint8_t bytes[4];
    if (!read_buffer(4, LARGEST_BUFFER, &next))
        return false;
    replace_store(next);
    if (!read_bytes(bytes, sizeof bytes))
        return false;
    session.opened = opened_given = bytes[0];
    session.lcsg = bytes[1];
    session.lcsa = bytes[2];
    session.error = bytes[3];
    begin_line('S');
    put_char(element_check_store(store.bytes, store.length) ? '1' : '0');
    end_line();
    return true;
}

static uint8_t execute(buffer command, buffer room)
{
    if (!by_run)
        return element_execute(command.bytes, command.length, store.bytes, store.length, &session, room.bytes, room.length);
    uint8_t outcome = ELEMENT_WRONG_SIZE;
    uint8_t ran = element_run(command.bytes, command.length, &command.length, 1, store.bytes, store.length, &session, room.bytes, room.length, &room.length, 1, &outcome, 1);
    return ran == ELEMENT_ANSWERED ? outcome : ran;
}

static void put_answer(uint8_t outcome, buffer room)
{
    begin_line('C');
    put_char((char)('0' + outcome));
    put_char(' ');
    put_session();
    put_char(' ');
    put_sum(store);
    put_char(' ');
    put_hex(room.bytes, room.length);
    end_line();
}

static bool take_command(void)
{
    buffer room;
    buffer command;
    if (!read_buffer(2, LONGEST, &room))
        return false;
    bool whole = read_buffer(2, LONGEST, &command);
    if (whole) {
        put_answer(execute(command, room), room);
        free(command.bytes);
    }
    free(room.bytes);
    return whole;
}

static bool show_store(void)
{
    begin_line('B');
    put_hex(store.bytes, store.length);
    end_line();
    return true;
}

static bool take_factory(void)
{
    size_t length;
    if (!read_number(4, &length) || length > LARGEST_BUFFER)
        return false;
    buffer made = make_buffer(length);
    if (length != 0)
        memset(made.bytes, FACTORY_FILL, length);
    uint8_t outcome = element_make_factory_store(made.bytes, length);
    begin_line('F');
    put_char((char)('0' + outcome));
    put_char(' ');
    put_sum(made);
    end_line();
    if (outcome != ELEMENT_ANSWERED) {
        free(made.bytes);
        return true;
    }
    replace_store(made);
    session = element_fresh_session();
    return true;
}

static bool take_item(int letter)
{
    switch (letter) {
    case 'S':
        return take_store();
    case 'C':
        return take_command();
    case 'B':
        return show_store();
    case 'F':
        return take_factory();
    default:
        return false;
    }
}

static void replay(void)
{
    int letter;
    while ((letter = getchar()) != EOF) {
        if (!take_item(letter)) {
            puts("bad");
            return;
        }
    }
}

int main(int argc, char **argv)
{
    static char input[1 << 16];
    static char output[1 << 16];
    setvbuf(stdin, input, _IOFBF, sizeof input);
    setvbuf(stdout, output, _IOFBF, sizeof output);
    by_run = argc > 1 && strcmp(argv[1], "run") == 0;
    session = element_fresh_session();
    replay();
    free(store.bytes);
    return fflush(stdout) == 0 && !ferror(stdout) ? 0 : 1;
}
