/*
 * A session at the dock in C99: commands and responses in frames, received in pieces of random sizes.
 *
 *   gcc -std=c99 -O2 -Iinclude examples/dock.c target/staticlib/libfirmware.a -o target/dock
 *
 * usage: dock [SEED]      a line for each command, with its response; then a stream damaged in three ways. The seed, 0 to 4294967295, chooses how
 *                         the streams are cut, and no line depends on it. Exits 1 where an answer is not the one that the element gives without a
 *                         dock
 *
 * All memory is the host's own and static.
 */
#include <stdio.h>
#include <stdlib.h>
#include <string.h>

#include "dock.h"
#include "element.h"

enum {
    LONGEST_PIECE = 40,
    LONGEST_STREAM = 4096,
    LARGE = 300 /* bytes that are written to F1E0: many pieces */
};

/* The commands of a day. */

static const uint8_t OPEN[] = "\x70\x00\x00\x10" ELEMENT_IDENTIFIER;
static const uint8_t WRITE[] = "\x02\x00\x00\x0C\xF1\xD0\x00\x00" "FARE 001";
static const uint8_t WRITE_MORE[] = "\x02\x00\x00\x0C\xF1\xD0\x00\x08" "FARE 002";
static const uint8_t READ[] = "\x01\x00\x00\x06\xF1\xD0\x00\x00\xFF\xFF";
static const uint8_t METADATA[] = "\x01\x01\x00\x02\xF1\xD0";
static const uint8_t WRITE_PAST[] = "\x02\x00\x00\x06\xF1\xD0\x00\x8B\xAB\xCD";
static const uint8_t APPEND[] = "\x02\x04\x00\x0A\xF1\xD1" "FARE 003";
static const uint8_t LAST_ERROR[] = "\x01\x00\x00\x06\xF1\xC2\x00\x00\x00\x01";
static const uint8_t READ_LARGE[] = "\x01\x00\x00\x06\xF1\xE0\x00\x00\xFF\xFF";
static const uint8_t OPERATIONAL[] = "\x02\x01\x00\x07\xF1\xD0\x20\x03\xC0\x01\x07";
static const uint8_t CLOSE[] = "\x71\x00\x00\x00";
static uint8_t write_large[8 + LARGE] = "\x02\x00\x01\x30\xF1\xE0\x00\x00";

static const struct {
    const uint8_t *bytes;
    size_t size;
} DAY[] = {
    {READ, sizeof READ - 1}, /* refused: the application is closed */
    {OPEN, sizeof OPEN - 1},
    {WRITE, sizeof WRITE - 1},
    {WRITE_MORE, sizeof WRITE_MORE - 1},
    {READ, sizeof READ - 1},
    {METADATA, sizeof METADATA - 1},
    {WRITE_PAST, sizeof WRITE_PAST - 1}, /* refused: past the maximum */
    {APPEND, sizeof APPEND - 1},         /* refused: F1D1 is no queue */
    {LAST_ERROR, sizeof LAST_ERROR - 1},
    {write_large, sizeof write_large},
    {READ_LARGE, sizeof READ_LARGE - 1},
    {OPERATIONAL, sizeof OPERATIONAL - 1},
    {WRITE, sizeof WRITE - 1}, /* refused: in service */
    {NULL, 0},                 /* refused: no command at all */
    {CLOSE, sizeof CLOSE - 1}
};
enum { COMMANDS = sizeof DAY / sizeof DAY[0] };

/* An element, its store and its session: the validator's, and one without a dock, which says what each answer has to be. */
typedef struct element {
    uint8_t store[ELEMENT_FACTORY_STORE_SIZE];
    element_session session;
} element;

/* The bytes of one direction. */
typedef struct wire {
    uint8_t bytes[LONGEST_STREAM];
    size_t length;
} wire;

/* One end of a direction: where its stream is, the bytes that it lends, and how many frames came whole. */
typedef struct receiver {
    dock_stream stream;
    dock_frame frame;
    size_t frames;
} receiver;

typedef void (*handler)(uint16_t kind, const uint8_t *body, size_t size);

static element validator, undocked;
static wire to_validator, to_dock;
static receiver receiving;
static uint8_t room[ELEMENT_LARGEST_ROOM];
static uint32_t seed = 1;

static void fail(const char *why)
{
    fflush(stdout);
    fprintf(stderr, "dock: %s\n", why);
    exit(1);
}

/* Which piece comes next, by a small generator. */
static size_t piece_size(size_t most)
{
    seed = (uint32_t)(seed * UINT32_C(1664525) + UINT32_C(1013904223));
    size_t size = (seed >> 16) % (LONGEST_PIECE + 1);
    return size < most ? size : most;
}

static void make_element(element *made)
{
    made->session = element_fresh_session();
    if (element_make_factory_store(made->store, sizeof made->store) != ELEMENT_ANSWERED)
        fail("the factory store cannot be made");
}

/* Carries out a command; the response stands in the room, and its length is returned. */
static size_t execute(element *of, const uint8_t *command, size_t size)
{
    if (element_execute(command, size, of->store, sizeof of->store, &of->session, room, sizeof room) != ELEMENT_ANSWERED)
        fail("the element has no room for a response");
    return ELEMENT_HEADER + ((size_t)room[2] << 8 | room[3]);
}

/* Puts a body on a wire, as a frame of its kind. */
static void send_frame(wire *to, uint16_t kind, const uint8_t *body, size_t size)
{
    uint8_t *end = to->bytes + to->length;
    size_t left = sizeof to->bytes - to->length;
    uint8_t came = kind == DOCK_COMMAND ? dock_write_command(body, size, end, left) : dock_write_response(body, size, end, left);
    if (came != DOCK_WRITTEN)
        fail(came == DOCK_BODY_TOO_LONG ? "a body is over 1,557 bytes" : "the stream has no room for a frame");
    to->length += size + DOCK_AROUND;
}

/* Hands a piece over; each whole frame goes to the handler. */
static void receive_piece(const uint8_t *piece, size_t length, handler handle)
{
    while (length > 0) {
        dock_fed fed = dock_feed(receiving.stream, &receiving.frame, piece, length);
        receiving.stream = fed.stream;
        piece += fed.taken;
        length -= fed.taken;
        if (fed.kind == 0)
            continue;
        handle(fed.kind, receiving.frame + DOCK_HEAD, fed.size);
        receiving.frames++;
    }
}

/* Receives a stream in random pieces, and returns why it has stopped. */
static uint16_t receive(const wire *from, handler handle)
{
    size_t at = 0;
    receiving.frames = 0;
    while (at < from->length) {
        size_t size = piece_size(from->length - at);
        receive_piece(from->bytes + at, size, handle);
        at += size;
    }
    return receiving.stream.stop;
}

/* The day. */

static void print_hex(const uint8_t *bytes, size_t length)
{
    for (size_t i = 0; i < length; i++)
        printf("%02X", (unsigned)bytes[i]);
}

/* At the validator: a host that keeps its store over a reset keeps it here, before the response goes out (docs/INTEGRATION.md). */
static void answer(uint16_t kind, const uint8_t *command, size_t size)
{
    if (kind != DOCK_COMMAND)
        fail("the validator received what is no command");
    size_t length = execute(&validator, command, size);
    send_frame(&to_dock, DOCK_RESPONSE, room, length);
}

/* At the dock: the response is that of the next command of the day, and the one that the element gives without a dock. */
static void tell(uint16_t kind, const uint8_t *response, size_t size)
{
    if (kind != DOCK_RESPONSE || receiving.frames == COMMANDS)
        fail("the dock received what is no response, or one too many");
    const uint8_t *command = DAY[receiving.frames].bytes;
    size_t command_size = DAY[receiving.frames].size;
    print_hex(command, command_size);
    putchar(' ');
    print_hex(response, size);
    putchar('\n');
    if (execute(&undocked, command, command_size) != size || memcmp(room, response, size) != 0)
        fail("the response is not the one that the element gives without a dock");
}

static void run_day(void)
{
    for (size_t i = 0; i < COMMANDS; i++)
        send_frame(&to_validator, DOCK_COMMAND, DAY[i].bytes, DAY[i].size);
    receiving.stream = dock_start();
    if (receive(&to_validator, answer) != DOCK_RUNNING || receiving.frames != COMMANDS)
        fail("a command did not reach the validator");
    receiving.stream = dock_start();
    if (receive(&to_dock, tell) != DOCK_RUNNING || receiving.frames != COMMANDS)
        fail("a response did not reach the dock");
    if (memcmp(validator.store, undocked.store, sizeof validator.store) != 0)
        fail("the validator's store is not the one that the same commands leave without a dock");
}

/* Damage. */

static const struct {
    const char *name;
    size_t at; /* the byte of the second frame that is changed */
    uint8_t to;
    uint16_t stop;
} DAMAGES[] = {
    {"a length of 5", 0, 5, DOCK_BAD_LENGTH},
    {"kind 0003", 2, 3, DOCK_UNKNOWN_KIND},
    {"a bit of the body", 4, 0x70, DOCK_BAD_CHECK}
};

static void print_received(uint16_t kind, const uint8_t *body, size_t size)
{
    printf("received %u: ", (unsigned)kind);
    print_hex(body, size);
    putchar('\n');
}

static void send_close(void)
{
    send_frame(&to_validator, DOCK_COMMAND, CLOSE, sizeof CLOSE - 1);
}

/* Three frames, the second damaged: the first comes out, then the stream has stopped, until a reset. */
static void run_damage(size_t i)
{
    to_validator.length = 0;
    send_close();
    size_t second = to_validator.length;
    send_close();
    send_close();
    to_validator.bytes[second + DAMAGES[i].at] = DAMAGES[i].to;
    receiving.stream = dock_start();
    uint16_t stop = receive(&to_validator, print_received);
    printf("%s: stopped with %u\n", DAMAGES[i].name, (unsigned)stop);
    if (stop != DAMAGES[i].stop || receiving.frames != 1)
        fail("the damage is not what stopped the stream, behind the first frame");
    to_validator.length = 0;
    send_close();
    if (receive(&to_validator, print_received) != stop || receiving.frames != 0)
        fail("a stream that has stopped goes on without a reset");
    receiving.stream = dock_start();
    if (receive(&to_validator, print_received) != DOCK_RUNNING || receiving.frames != 1)
        fail("the frame after the reset is not received");
}

static bool read_seed(const char *word)
{
    char *end;
    unsigned long long number = strtoull(word, &end, 10);
    seed = (uint32_t)number;
    return word[0] >= '0' && word[0] <= '9' && *end == '\0' && number <= UINT32_MAX;
}

int main(int arguments, char **words)
{
    if (arguments > 2 || (arguments == 2 && !read_seed(words[1]))) {
        fputs("usage: dock [SEED]\n", stderr);
        return 1;
    }
    for (size_t i = 0; i < LARGE; i++)
        write_large[8 + i] = (uint8_t)i;
    make_element(&validator);
    make_element(&undocked);
    run_day();
    for (size_t i = 0; i < sizeof DAMAGES / sizeof DAMAGES[0]; i++)
        run_damage(i);
    return fflush(stdout) == 0 && !ferror(stdout) ? 0 : 1;
}
