/*
 * The stack that each entry of include/element.h and include/dock.h takes: each is called on a painted stack of its own, over commands and frames of
 * every kind, and the deepest byte that changed is found.
 *
 * usage: stack [any]      fails above the bound of an entry; with `any`, only runs (a sanitizer's memset takes stack too)
 *
 * A figure is in bytes below the caller's frame: arguments on the stack, the return address, the library's frames, and those of memset.
 */
#define _XOPEN_SOURCE 700
#include <stdio.h>
#include <stdlib.h>
#include <string.h>
#include <ucontext.h>

#include "dock.h"
#include "element.h"

enum {
    STACK = 65536,
    GAP = 512, /* between the switch of stacks and the call, so that the switch back overwrites nothing of it */
    ROUNDS = 10000,
    LIST = 64,
    LARGE = 552, /* with it, 24 records of data or queues and 8 counters are the largest store */
    FARES = 20,  /* of a queue, at most */
    SESSION_OBJECTS = 3
};

/* What a call is made with. */
static uint8_t store[ELEMENT_LARGEST_STORE];
static size_t store_len;
static element_session session;
static uint8_t commands[LIST * (ELEMENT_LARGEST_COMMAND + 1)];
static size_t sizes[LIST];
static uint8_t rooms[LIST * ELEMENT_LARGEST_ROOM];
static size_t spaces[LIST];
static uint8_t outcomes[LIST];
static size_t command_len, room_len, count;

/* Commands that were done, some kinds of them, and refused with a number: so that every kind is seen to be there. */
static unsigned done, counted, appended, acknowledged, stepped, refused[256];
static uint8_t before[ELEMENT_LARGEST_STORE];

/* A stream of frames, a piece of it and a room for a frame; the calls that ended with a frame, and with each stop. */
static dock_frame lent;
static dock_stream stream;
static dock_fed fed;
static uint8_t piece[DOCK_LONGEST_FRAME];
static uint8_t body[DOCK_LONGEST_BODY + 1];
static uint8_t framed[DOCK_LONGEST_FRAME];
static size_t piece_len, body_len;
static unsigned frames, stops[4], written[3];

/* The painted stack. */

static uint8_t stack[STACK];
static ucontext_t host, guest;
static uint8_t *frame; /* of the function that calls the entry */
static void (*call)(void);

static void on_stack(void)
{
    volatile uint8_t gap[GAP];
    gap[0] = 0;
    call();
    gap[GAP - 1] = gap[0];
}

static void paint(uint8_t colour)
{
    memset(stack, colour, sizeof stack);
}

static void call_on_stack(void (*entry)(void))
{
    call = entry;
    if (getcontext(&guest) != 0)
        exit(2);
    guest.uc_stack.ss_sp = stack;
    guest.uc_stack.ss_size = sizeof stack;
    guest.uc_link = &host;
    makecontext(&guest, on_stack, 0);
    if (swapcontext(&host, &guest) != 0)
        exit(2);
}

/* How far below the caller's frame a byte is not as it was painted. */
static size_t depth(uint8_t colour)
{
    uint8_t *at = stack;
    while (*at == colour)
        at++;
    return at < frame ? (size_t)(frame - at) : 0;
}

/* The entries. Each keeps where its own frame is. */

static void call_execute(void)
{
    frame = __builtin_frame_address(0);
    outcomes[0] = element_execute(commands, command_len, store, store_len, &session, rooms, room_len);
}

static void call_run(void)
{
    frame = __builtin_frame_address(0);
    outcomes[0] = element_run(commands, sizeof commands, sizes, count, store, store_len, &session, rooms, sizeof rooms, spaces, count, outcomes, count);
}

static void call_check_store(void)
{
    frame = __builtin_frame_address(0);
    outcomes[0] = element_check_store(store, store_len);
}

static void call_make_factory_store(void)
{
    frame = __builtin_frame_address(0);
    outcomes[0] = element_make_factory_store(store, store_len);
}

static void call_fresh_session(void)
{
    frame = __builtin_frame_address(0);
    session = element_fresh_session();
}

static void call_dock_start(void)
{
    frame = __builtin_frame_address(0);
    stream = dock_start();
}

static void call_dock_feed(void)
{
    frame = __builtin_frame_address(0);
    fed = dock_feed(stream, &lent, piece, piece_len);
}

static void call_dock_write_command(void)
{
    frame = __builtin_frame_address(0);
    outcomes[0] = dock_write_command(body, body_len, framed, room_len);
}

static void call_dock_write_response(void)
{
    frame = __builtin_frame_address(0);
    outcomes[0] = dock_write_response(body, body_len, framed, room_len);
}

/* Stores, sessions and commands by chance, from a fixed seed. */

static uint32_t seed;

static size_t below(size_t limit)
{
    seed ^= seed << 13;
    seed ^= seed >> 17;
    seed ^= seed << 5;
    return seed % limit;
}

static uint8_t one_of(const char *bytes, size_t size)
{
    return (uint8_t)bytes[below(size)];
}

static uint8_t state(void)
{
    return one_of("\x01\x03\x07\x0F", 4);
}

/* A condition on a state, or on one of the counters of the largest store. */
static void put_condition(uint8_t *at)
{
    at[0] = one_of("\x70\xE0\xE1\x40\x40", 5);
    at[1] = one_of("\xFA\xFB\xFC", 3);
    at[2] = state();
    if (at[0] == ELEMENT_CONDITION_COUNTER) {
        at[1] = 0xF1;
        at[2] = (uint8_t)(0xD3 + 4 * below(8));
    }
}

/* An expression of so many conditions, after its length; none is 00. Returns the bytes put. */
static size_t put_expression(uint8_t *at, size_t conditions)
{
    size_t size = conditions == 0 ? 1 : 4 * conditions - 1;
    at[0] = (uint8_t)size;
    at[1] = 0x00;
    for (size_t i = 0; i < conditions; i++) {
        uint8_t *condition = at + 1 + 4 * i;
        put_condition(condition);
        if (i + 1 < conditions)
            condition[3] = i == 1 || i == 3 ? 0xFE : 0xFD;
    }
    return 1 + size;
}

static void put_low_first(uint8_t *at, size_t number)
{
    at[0] = (uint8_t)number;
    at[1] = (uint8_t)(number >> 8);
}

static size_t put_fare(uint8_t *at, uint32_t number, size_t body)
{
    put_low_first(at, ELEMENT_FARE_HEAD + body);
    put_low_first(at + 2, ELEMENT_FARE_KIND);
    put_low_first(at + 4, number & 0xFFFF);
    put_low_first(at + 6, number >> 16);
    return ELEMENT_FARE_HEAD + body;
}

/* Fares from number 0 on, or from just below the last one on. Returns the bytes in use. */
static size_t put_queue(uint8_t *data, size_t maximum)
{
    uint32_t next = below(4) == 0 ? ELEMENT_NO_NUMBER - (uint32_t)below(FARES) : 0;
    size_t used = ELEMENT_QUEUE_HEAD;
    for (size_t fares = below(FARES); fares > 0 && next != ELEMENT_NO_NUMBER; fares--) {
        size_t body = 1 + below(below(8) == 0 ? ELEMENT_LARGEST_BODY : 20);
        if (used + ELEMENT_FARE_HEAD + body > maximum)
            break;
        used += put_fare(data + used, next++, body);
    }
    put_low_first(data, next & 0xFFFF);
    put_low_first(data + 2, next >> 16);
    return used;
}

static size_t put_counter(uint8_t *data)
{
    for (size_t i = 0; i < ELEMENT_COUNTER_SIZE; i++)
        data[i] = one_of("\x00\x00\x01\xFF", 4);
    return ELEMENT_COUNTER_SIZE;
}

/* A record with expressions of up to 27 bytes, in zeroed bytes; a counter or a queue is any. Returns its size. */
static size_t put_record(uint8_t *record, size_t object, uint8_t kind, size_t maximum)
{
    put_low_first(record, ELEMENT_RECORD_HEAD + maximum);
    put_low_first(record + 2, kind);
    put_low_first(record + 4, object);
    put_low_first(record + 6, maximum);
    record[10] = state();
    for (size_t slot = 0; slot < 3; slot++)
        put_expression(record + 12 + ELEMENT_SLOT * slot, below(8));
    if (kind == ELEMENT_KIND_QUEUE)
        put_low_first(record + 8, put_queue(record + ELEMENT_RECORD_HEAD, maximum));
    else if (kind != ELEMENT_KIND_DATA)
        put_low_first(record + 8, put_counter(record + ELEMENT_RECORD_HEAD));
    return ELEMENT_RECORD_HEAD + maximum;
}

/* The largest store: 32 records, every fourth a counter, every eighth a queue; data and queues of 552 bytes. */
static void make_largest_store(void)
{
    size_t at = 0;
    memset(store, 0, sizeof store);
    for (size_t i = 0; i < ELEMENT_MOST_RECORDS; i++) {
        bool counter = i % 4 == 3;
        uint8_t kind = counter ? one_of("\x02\x04", 2) : i % 8 == 0 ? ELEMENT_KIND_QUEUE : ELEMENT_KIND_DATA;
        at += put_record(store + at, 0xF1D0 + i, kind, counter ? ELEMENT_COUNTER_SIZE : LARGE);
    }
    store_len = at;
}

static void begin(void)
{
    session = element_fresh_session();
    session.opened = below(8) != 0;
    store_len = ELEMENT_FACTORY_STORE_SIZE;
    element_make_factory_store(store, store_len);
    if (below(2) == 0)
        make_largest_store();
    if (below(8) == 0)
        session.lcsg = session.lcsa = state();
    if (below(16) == 0)
        store[store_len - 1] = 0x01; /* malformed */
}

static size_t put_object(uint8_t *at)
{
    static const uint16_t kept[SESSION_OBJECTS] = {ELEMENT_LCSG, ELEMENT_LCSA, ELEMENT_LAST_ERROR};
    size_t number = below(8) == 0 ? kept[below(SESSION_OBJECTS)] : 0xF1D0 + below(20);
    at[0] = (uint8_t)(number >> 8);
    at[1] = (uint8_t)number;
    return 2;
}

static size_t put_number(uint8_t *at, size_t number)
{
    at[0] = (uint8_t)(number >> 8);
    at[1] = (uint8_t)number;
    return 2;
}

/* 20, L, and the fields C0, D0, D1, D3, some left out. */
static size_t put_content(uint8_t *at)
{
    static const uint8_t tags[] = {0xD0, 0xD1, 0xD3};
    size_t size = 2;
    if (below(2) == 0) {
        at[size++] = 0xC0;
        at[size++] = 1;
        at[size++] = state();
    }
    for (size_t i = 0; i < sizeof tags; i++) {
        if (below(4) == 0)
            continue;
        at[size++] = tags[i];
        size += put_expression(at + size, below(8));
    }
    at[0] = 0x20;
    at[1] = (uint8_t)(size - 2);
    return size;
}

static size_t put_get(uint8_t *in)
{
    size_t size = put_object(in);
    size += put_number(in + size, below(4) == 0 ? below(2000) : 0);
    return size + put_number(in + size, below(2) == 0 ? below(1600) : below(2));
}

static size_t put_write(uint8_t *in)
{
    static const size_t largest[] = {2, 9, 140, LARGE + 1, 1501, 1550};
    size_t size = put_object(in);
    size += put_number(in + size, below(2) == 0 ? 0 : below(1600));
    size_t end = size + below(largest[below(6)]);
    while (size < end)
        in[size++] = state();
    return size;
}

/* Mostly of a counter of the largest store. */
static size_t put_count(uint8_t *in)
{
    size_t size = below(4) == 0 ? put_object(in) : put_number(in, 0xF1D3 + 4 * below(8));
    size += put_number(in + size, below(8) == 0);
    in[size++] = (uint8_t)below(256);
    return size;
}

/* Mostly a queue of the largest store. */
static size_t put_queue_object(uint8_t *in)
{
    return below(4) == 0 ? put_object(in) : put_number(in, 0xF1D0 + 8 * below(4));
}

static size_t put_append(uint8_t *in)
{
    static const size_t largest[] = {2, 20, ELEMENT_LARGEST_BODY + 1, ELEMENT_LARGEST_BODY + 3};
    size_t size = put_queue_object(in);
    size_t body = below(largest[below(4)]);
    memset(in + size, 0xC3, body);
    return size + body;
}

/* Mostly of a fare that may be there. */
static size_t put_acknowledge(uint8_t *in)
{
    uint32_t number = below(4) == 0 ? ELEMENT_NO_NUMBER - (uint32_t)below(FARES) : (uint32_t)below(FARES);
    size_t size = put_queue_object(in);
    size += put_number(in + size, number >> 16);
    return size + put_number(in + size, number & 0xFFFF);
}

static size_t put_in_data(uint8_t *in, uint8_t cmd, uint8_t param)
{
    if (cmd == ELEMENT_OPEN) {
        memcpy(in, ELEMENT_IDENTIFIER, ELEMENT_IDENTIFIER_SIZE);
        in[15] ^= below(8) == 0;
        return ELEMENT_IDENTIFIER_SIZE;
    }
    if (cmd == ELEMENT_GET)
        return param == ELEMENT_METADATA ? put_object(in) : put_get(in);
    if (cmd == ELEMENT_SET && param == ELEMENT_METADATA)
        return put_object(in) + put_content(in + 2);
    if (cmd == ELEMENT_SET && param == ELEMENT_COUNT)
        return put_count(in);
    if (cmd == ELEMENT_SET && param == ELEMENT_APPEND)
        return put_append(in);
    if (cmd == ELEMENT_SET && param == ELEMENT_ACKNOWLEDGE)
        return put_acknowledge(in);
    return cmd == ELEMENT_SET ? put_write(in) : 0;
}

/* A command, at most a byte too long; returns its size. */
static size_t put_command(uint8_t *at)
{
    uint8_t cmd = below(16) == 0 ? (uint8_t)below(128) : one_of("\x01\x01\x02\x02\x02\x70\x71", 7);
    uint8_t param = cmd == ELEMENT_SET ? one_of("\x00\x40\x01\x02\x04\x05", 6) : cmd == ELEMENT_GET ? one_of("\x00\x01", 2) : 0;
    if (below(32) == 0)
        param = (uint8_t)below(256);
    size_t size = put_in_data(at + ELEMENT_HEADER, cmd, param);
    at[0] = (uint8_t)(cmd | (below(8) == 0 ? ELEMENT_FLUSH : 0));
    at[1] = param;
    put_number(at + 2, size);
    if (below(32) == 0)
        return below(ELEMENT_HEADER + size);
    return ELEMENT_HEADER + size;
}

static size_t some_space(void)
{
    return below(8) == 0 ? below(16) : ELEMENT_LARGEST_ROOM;
}

/* One call with other commands; they fit what was set apart for them. */

static bool is_set(uint8_t param)
{
    return (commands[0] & ~ELEMENT_FLUSH) == ELEMENT_SET && commands[1] == param;
}

static bool is_get(void)
{
    return (commands[0] & ~ELEMENT_FLUSH) == ELEMENT_GET;
}

static void note(uint8_t outcome, uint8_t status, uint8_t error)
{
    if (outcome != ELEMENT_ANSWERED)
        return;
    if (status == ELEMENT_STATUS_DONE) {
        done++;
        counted += is_set(ELEMENT_COUNT);
        appended += is_set(ELEMENT_APPEND);
        acknowledged += is_set(ELEMENT_ACKNOWLEDGE);
        stepped += is_get() && memcmp(before, store, store_len) != 0;
    } else
        refused[error]++;
}

static void try_execute(void)
{
    begin();
    command_len = put_command(commands);
    room_len = some_space();
    memcpy(before, store, store_len);
    call_on_stack(call_execute);
    note(outcomes[0], rooms[0], session.error);
}

static void try_run(void)
{
    size_t at = 0;
    begin();
    count = 1 + below(LIST);
    for (size_t i = 0; i < count; i++) {
        sizes[i] = put_command(commands + at);
        spaces[i] = some_space();
        at += sizes[i];
    }
    call_on_stack(call_run);
}

static void try_check_store(void)
{
    begin();
    call_on_stack(call_check_store);
}

static void try_make_factory_store(void)
{
    store_len = ELEMENT_FACTORY_STORE_SIZE + (below(8) == 0);
    call_on_stack(call_make_factory_store);
}

static void try_fresh_session(void)
{
    call_on_stack(call_fresh_session);
}

/* Frames by chance. */

static void try_dock_start(void)
{
    call_on_stack(call_dock_start);
}

/* A body of any size, one in eight too long, and a room that is mostly large enough. */
static void try_dock_write(void (*entry)(void))
{
    body_len = below(8) == 0 ? sizeof body : below(sizeof body);
    room_len = below(8) == 0 ? below(sizeof framed) : sizeof framed;
    for (size_t i = 0; i < body_len; i++)
        body[i] = (uint8_t)below(256);
    call_on_stack(entry);
    written[outcomes[0]]++;
}

static void try_dock_write_command(void)
{
    try_dock_write(call_dock_write_command);
}

static void try_dock_write_response(void)
{
    try_dock_write(call_dock_write_response);
}

/* A piece of a frame, which one time in four has a byte changed; a stream that mostly goes on with what was collected, or begins anew. */
static void try_dock_feed(void)
{
    body_len = below(below(4) == 0 ? DOCK_LONGEST_BODY : 40);
    dock_write_command(body, body_len, piece, sizeof piece);
    piece_len = body_len + DOCK_AROUND;
    if (below(4) == 0)
        piece[below(piece_len)] ^= (uint8_t)(1 + below(255));
    if (below(4) == 0)
        piece_len = below(piece_len);
    if (stream.stop != DOCK_RUNNING || below(2) == 0)
        stream = dock_start();
    if (below(64) == 0)
        stream.collected = (uint16_t)below(0x10000);
    call_on_stack(call_dock_feed);
    stream = fed.stream;
    frames += fed.kind != 0;
    stops[stream.stop]++;
}

/* The figures. */

static const struct {
    const char *name;
    void (*attempt)(void);
    size_t bound;
} ENTRIES[] = {
    {"element_execute", try_execute, 640},
    {"element_run", try_run, 768},
    {"element_check_store", try_check_store, 384},
    {"element_make_factory_store", try_make_factory_store, 448},
    {"element_fresh_session", try_fresh_session, 64},
    {"dock_start", try_dock_start, 64},
    {"dock_feed", try_dock_feed, 768},
    {"dock_write_command", try_dock_write_command, 640},
    {"dock_write_response", try_dock_write_response, 640}
};

/* The deepest of all calls, with either colour: a byte of the one colour may have been written as such. */
static size_t deepest(void (*attempt)(void))
{
    size_t most = 0;
    for (unsigned turn = 0; turn < 2; turn++) {
        uint8_t colour = turn == 0 ? 0xA5 : 0x5A;
        seed = 1;
        paint(colour);
        for (size_t i = 0; i < ROUNDS; i++)
            attempt();
        size_t now = depth(colour);
        if (now > most)
            most = now;
    }
    return most;
}

/* Every refusal of the header has been seen, and commands that were done, each kind that is noted among them. */
static bool all_kinds(void)
{
    static const uint8_t numbers[] = {0x01, 0x03, 0x04, 0x05, 0x06, 0x07, 0x08, 0x0A, 0x0C, 0x0D};
    for (size_t i = 0; i < sizeof numbers; i++)
        if (refused[numbers[i]] == 0) {
            printf("no command was refused with %02X\n", (unsigned)numbers[i]);
            return false;
        }
    if (counted == 0 || appended == 0 || acknowledged == 0 || stepped == 0) {
        printf("no count, append or acknowledge was done, or no get that used up a counter\n");
        return false;
    }
    return done > ROUNDS / 4;
}

/* Whole frames, every stop, and every number of the writers have been seen. */
static bool all_frames(void)
{
    if (frames > 0 && stops[1] > 0 && stops[2] > 0 && stops[3] > 0 && written[0] > 0 && written[1] > 0 && written[2] > 0)
        return true;
    printf("no frame was received whole, a stream was not stopped with 1, 2 and 3, or a writer did not return 0, 1 and 2\n");
    return false;
}

int main(int arguments, char **words)
{
    bool any = arguments > 1 && strcmp(words[1], "any") == 0;
    bool within = true;
    for (size_t i = 0; i < sizeof ENTRIES / sizeof ENTRIES[0]; i++) {
        size_t most = deepest(ENTRIES[i].attempt);
        if (!any)
            printf("%s: %zu bytes of stack, bound %zu\n", ENTRIES[i].name, most, ENTRIES[i].bound);
        within = within && (any || most <= ENTRIES[i].bound);
    }
    if (!all_kinds() || !all_frames())
        return 1;
    printf("%d calls of each entry on a stack of their own; of the commands %u were done, %u of them counts, %u appends, %u acknowledgements and %u gets"
        " that used up a counter, the others refused with every number; %u frames were received\n",
        2 * ROUNDS, done, counted, appended, acknowledged, stepped, frames);
    return within ? 0 : 1;
}
