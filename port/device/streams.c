/*
 * Streams of frames with what must come of them, through the functions of dock.h. Each answer, the stream's value and all lent bytes must be those
 * of the stream of items. Where they are not, the next call goes on with the latter.
 *
 * Numbers in the stream stand most significant byte first. Before the first item the stream is between frames and all lent bytes are 00.
 *
 *   N   fill 1                                        the stream is between frames, all lent bytes are the fill
 *   H   collected 2, stop 2, lent bytes 1,563         value and lent bytes are these
 *   P   length 2, piece                               then the number of calls of dock_feed, 2, and for each taken, collected, stop, kind and size,
 *                                                     2 each, and all lent bytes after it
 *   W   kind 1, room length 2, room, body length 2,   a frame of kind 01 or 02; then the number 1, the whole room after it
 *       body
 *   E   the number of P, 4
 */
#include "dock.h"
#include "harness.h"
#include "support.h"

enum {
    LONGEST_PIECE = 65535,
    LONGEST = 4096, /* of a room or a body */
    NUMBERS = 3,    /* that a writer returns */
    STOPS = 4
};

const char *const counted = "pieces";

/* The stream's present value and lent bytes; those after a call. */
static dock_stream stream;
static uint8_t frame[DOCK_LONGEST_FRAME] __attribute__((aligned(4)));
static uint8_t frame_due[DOCK_LONGEST_FRAME] __attribute__((aligned(4)));

static uint8_t piece[LONGEST_PIECE] __attribute__((aligned(4)));
static uint8_t body[LONGEST] __attribute__((aligned(4)));
static uint8_t room[LONGEST] __attribute__((aligned(4)));
static uint8_t room_due[LONGEST] __attribute__((aligned(4)));
static const uint8_t *rest;
static size_t rest_len, body_len;

/* What a call is lent, and what it returned. */
static uint8_t area[LONGEST + AROUND] __attribute__((aligned(4)));
static lent lent_bytes;
static const uint8_t *rest_lent, *body_lent;
static dock_stream started;
static dock_fed fed;
static uint8_t returned;

static uint32_t calls, frames, stops[STOPS], written[NUMBERS];
static uint64_t bytes_fed;
static cost feed_cost;

/* The entries, each on its own stack. */

static entry start_entry, feed_entry, command_entry, response_entry;

static void call_start(void)
{
    start_entry.pointer = machine_stack_pointer;
    started = dock_start();
}

static void call_feed(void)
{
    feed_entry.pointer = machine_stack_pointer;
    cost_begin(&feed_cost);
    fed = dock_feed(stream, (dock_frame *)lent_bytes.bytes, rest_lent, rest_len);
    cost_end(&feed_cost);
}

static void call_command(void)
{
    command_entry.pointer = machine_stack_pointer;
    returned = dock_write_command(body_lent, body_len, lent_bytes.bytes, lent_bytes.length);
}

static void call_response(void)
{
    response_entry.pointer = machine_stack_pointer;
    returned = dock_write_response(body_lent, body_len, lent_bytes.bytes, lent_bytes.length);
}

enum { ENTRIES = 4 };
static entry *const entries[ENTRIES] = {&start_entry, &feed_entry, &command_entry, &response_entry};

/* Items. */

static void start(void)
{
    memset(&started, 0xFF, sizeof started);
    call_entry(&start_entry);
    same_number(start_entry.name, "collected", started.collected, 0);
    same_number(start_entry.name, "stop", started.stop, DOCK_RUNNING);
    stream.collected = 0;
    stream.stop = DOCK_RUNNING;
}

static void take_new(void)
{
    uint8_t fill = (uint8_t)read_number(1);
    start();
    memset(frame, fill, sizeof frame);
}

static void take_held(void)
{
    stream.collected = (uint16_t)read_number(2);
    stream.stop = (uint16_t)read_number(2);
    read_bytes(frame, sizeof frame);
}

static dock_fed read_fed(void)
{
    dock_fed due;
    due.taken = read_number(2);
    due.stream.collected = (uint16_t)read_number(2);
    due.stream.stop = (uint16_t)read_number(2);
    due.kind = (uint16_t)read_number(2);
    due.size = (uint16_t)read_number(2);
    read_bytes(frame_due, sizeof frame_due);
    if (due.taken > rest_len || due.stream.stop >= STOPS)
        stop("more bytes taken than there are, or an unknown stop");
    return due;
}

static void feed_once(void)
{
    dock_fed due = read_fed();
    lent_bytes = lend(area, frame, sizeof frame);
    rest_lent = lend_constant(rest, rest_len);
    memset(&fed, 0xFF, sizeof fed);
    call_entry(&feed_entry);
    same_number(feed_entry.name, "taken", fed.taken, due.taken);
    same_number(feed_entry.name, "collected", fed.stream.collected, due.stream.collected);
    same_number(feed_entry.name, "stop", fed.stream.stop, due.stream.stop);
    same_number(feed_entry.name, "kind", fed.kind, due.kind);
    same_number(feed_entry.name, "size", fed.size, due.size);
    same_lent(feed_entry.name, "lent bytes", lent_bytes, frame_due);
    stream = due.stream;
    memcpy(frame, frame_due, sizeof frame);
    rest += due.taken;
    rest_len -= due.taken;
    bytes_fed += due.taken;
    calls++;
    frames += due.kind != 0;
    stops[due.stream.stop]++;
}

static void take_piece(void)
{
    rest = piece;
    rest_len = read_number(2);
    read_bytes(piece, rest_len);
    uint32_t left = read_number(2);
    do {
        if (left-- == 0)
            stop("fewer calls than take the piece");
        feed_once();
    } while (rest_len > 0);
    if (left != 0)
        stop("more calls than take the piece");
    count_one();
}

static void take_write(void)
{
    uint32_t kind = read_number(1);
    if (kind != DOCK_COMMAND && kind != DOCK_RESPONSE)
        stop("a frame of another kind");
    entry *writer = kind == DOCK_COMMAND ? &command_entry : &response_entry;
    size_t room_len = read_length(2, LONGEST);
    read_bytes(room, room_len);
    body_len = read_length(2, LONGEST);
    read_bytes(body, body_len);
    uint32_t due = read_number(1);
    if (due >= NUMBERS)
        stop("a number that no writer returns");
    read_bytes(room_due, room_len);
    lent_bytes = lend(area, room, room_len);
    body_lent = lend_constant(body, body_len);
    call_entry(writer);
    same_number(writer->name, "number", returned, due);
    same_lent(writer->name, "room", lent_bytes, room_due);
    written[due]++;
}

bool take_item(uint8_t letter)
{
    switch (letter) {
    case 'N':
        take_new();
        return true;
    case 'H':
        take_held();
        return true;
    case 'P':
        take_piece();
        return true;
    case 'W':
        take_write();
        return true;
    default:
        return false;
    }
}

void begin(void)
{
    static uint32_t stacks[ENTRIES][STACK_WORDS] __attribute__((aligned(16)));
    prepare(&start_entry, "dock_start", call_start, stacks[0]);
    prepare(&feed_entry, "dock_feed", call_feed, stacks[1]);
    prepare(&command_entry, "dock_write_command", call_command, stacks[2]);
    prepare(&response_entry, "dock_write_response", call_response, stacks[3]);
    start();
}

void show_figures(void)
{
    uint32_t tenths = bytes_fed == 0 ? 0 : (uint32_t)(10 * feed_cost.sum / bytes_fed);
    say("items: %u calls of dock_feed, %u whole frames, %u calls left a stop of 1, %u of 2, %u of 3; %u frames written, %u bodies too long, %u rooms"
        " too small",
        (unsigned)calls, (unsigned)frames, (unsigned)stops[1], (unsigned)stops[2], (unsigned)stops[3], (unsigned)written[0], (unsigned)written[1],
        (unsigned)written[2]);
    say("instructions: dock_feed %u.%u a byte, most %u a call", (unsigned)(tenths / 10), (unsigned)(tenths % 10), (unsigned)feed_cost.most);
    for (size_t i = 0; i < ENTRIES; i++)
        show_stack(entries[i]);
}
