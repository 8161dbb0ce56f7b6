/*
 * The edges of include/dock.h, each with the answer that the header gives, written by hand: streams in every piece size, every fault at its byte,
 * every kind of strange value, pieces and frames of every size, and the writers at their limits.
 * Prints the number of checks; at the first that fails, what was expected, and exits 1.
 *
 *   gcc -std=c99 -O2 -Iinclude tests/dock_misuse.c target/staticlib/libfirmware.a -o dock_misuse
 */
#include <stdarg.h>
#include <stdbool.h>
#include <stdio.h>
#include <stdlib.h>
#include <string.h>

#include "dock.h"

enum {
    FILL = 0xEE,
    GUARD = 16,
    LONG_PIECE = 70000
};

/* The lent bytes and a room, with bytes around them that no call may change. */
typedef struct fixture {
    uint8_t before[GUARD];
    dock_frame frame;
    uint8_t between[GUARD];
    uint8_t room[DOCK_LONGEST_FRAME + 2];
    uint8_t behind[GUARD];
    dock_stream stream;
} fixture;

/* Frames by hand: the command 71 00 00 00, the response 00 00 00 00, the command "123456789", and both kinds with no body. */
static const uint8_t CLOSE[] = {0x0A, 0x00, 0x01, 0x00, 0x71, 0x00, 0x00, 0x00, 0x06, 0x64};
static const uint8_t DONE[] = {0x0A, 0x00, 0x02, 0x00, 0x00, 0x00, 0x00, 0x00, 0x85, 0x2E};
static const uint8_t NINE[] = {0x0F, 0x00, 0x01, 0x00, '1', '2', '3', '4', '5', '6', '7', '8', '9', 0x33, 0x41};
static const uint8_t EMPTY_COMMAND[] = {0x06, 0x00, 0x01, 0x00, 0x42, 0x52};
static const uint8_t EMPTY_RESPONSE[] = {0x06, 0x00, 0x02, 0x00, 0x2A, 0x78};

static fixture now;
static fixture was;
static dock_fed fed;
static unsigned checks;

static uint8_t body[DOCK_LONGEST_BODY + 1];
static uint8_t longest[DOCK_LONGEST_FRAME];
static uint8_t long_piece[LONG_PIECE];

static void expect(bool holds, const char *expected, ...)
{
    va_list values;
    checks++;
    if (holds)
        return;
    printf("check %u: expected ", checks);
    va_start(values, expected);
    vprintf(expected, values);
    va_end(values);
    putchar('\n');
    exit(1);
}

/* A stream of this value, all bytes FILL; what stands in `was` is the same. */
static void begin_with(uint16_t collected, uint16_t stop)
{
    memset(&now, FILL, sizeof now);
    now.stream.collected = collected;
    now.stream.stop = stop;
    was = now;
}

static void begin(void)
{
    begin_with(0, 0);
}

/* The front of the lent bytes by hand, before the call. */
static void lend(const uint8_t *bytes, size_t length)
{
    memcpy(now.frame, bytes, length);
    memcpy(was.frame, bytes, length);
}

static void feed(const uint8_t *piece, size_t length)
{
    fed = dock_feed(now.stream, &now.frame, piece, length);
    now.stream = fed.stream;
}

/* What is to stand at a place of the lent bytes after the call. */
static void due(size_t at, const uint8_t *bytes, size_t length)
{
    memcpy(was.frame + at, bytes, length);
}

/* Whether the value is this one, so many bytes were taken, and no byte is changed but those that are due. */
static bool left(uint16_t collected, uint16_t stop, size_t taken)
{
    was.stream.collected = collected;
    was.stream.stop = stop;
    return fed.taken == taken && memcmp(&now, &was, sizeof now) == 0;
}

static bool no_frame(uint16_t collected, uint16_t stop, size_t taken)
{
    return fed.kind == 0 && fed.size == 0 && left(collected, stop, taken);
}

static bool whole(uint16_t kind, uint16_t size, size_t taken)
{
    return fed.kind == kind && fed.size == size && left(0, 0, taken);
}

/* The check by another way than bit by bit: a table of 16 numbers for half a byte. */
static uint16_t check_of(const uint8_t *bytes, size_t length)
{
    static const uint16_t half[16] = {
        0x0000, 0x1081, 0x2102, 0x3183, 0x4204, 0x5285, 0x6306, 0x7387, 0x8408, 0x9489, 0xA50A, 0xB58B, 0xC60C, 0xD68D, 0xE70E, 0xF78F
    };
    unsigned sum = 0;
    for (size_t i = 0; i < length; i++) {
        sum = sum >> 4 ^ half[(sum ^ bytes[i]) & 0x0F];
        sum = sum >> 4 ^ half[(sum ^ bytes[i] >> 4) & 0x0F];
    }
    return (uint16_t)sum;
}

static void put_low_first(uint8_t *at, unsigned number)
{
    at[0] = (uint8_t)number;
    at[1] = (uint8_t)(number >> 8);
}

/* A frame of the body's first bytes, by hand. Returns its length. */
static size_t put_frame(uint8_t *at, unsigned kind, size_t size)
{
    put_low_first(at, (unsigned)(size + DOCK_AROUND));
    put_low_first(at + 2, kind);
    memcpy(at + DOCK_HEAD, body, size);
    put_low_first(at + DOCK_HEAD + size, check_of(at, DOCK_HEAD + size));
    return size + DOCK_AROUND;
}

static void fill_body(void)
{
    for (size_t i = 0; i < sizeof body; i++)
        body[i] = (uint8_t)(i * 7 + (i >> 8));
}

/* Constants, the check, and the start. */

static void check_constants(void)
{
    expect(DOCK_COMMAND == 1 && DOCK_RESPONSE == 2, "the kinds 0001 and 0002");
    expect(DOCK_RUNNING == 0 && DOCK_BAD_LENGTH == 1 && DOCK_UNKNOWN_KIND == 2 && DOCK_BAD_CHECK == 3, "the numbers of the faults");
    expect(DOCK_WRITTEN == 0 && DOCK_BODY_TOO_LONG == 1 && DOCK_ROOM_TOO_SMALL == 2, "the numbers of the writers");
    expect(DOCK_HEAD == 4 && DOCK_AROUND == 6 && DOCK_LONGEST_FRAME == 1563 && DOCK_LONGEST_BODY == 1557, "the sizes");
    expect(sizeof(dock_stream) == 4 && sizeof(dock_fed) == 8 + sizeof(size_t), "the layout of the two structs");
    expect(check_of((const uint8_t *)"123456789", 9) == 0x2189, "2189, the check of \"123456789\", by the check of this test");
    dock_stream start = dock_start();
    expect(start.collected == 0 && start.stop == 0, "a stream that starts between frames");
}

/* Empty pieces. */

static void check_empty_pieces(void)
{
    static const uint16_t collected[] = {0, 1, 3, 700, 1562, 1563, 1564, 0xFFFF};
    uint8_t none[1] = {0x55};
    for (size_t i = 0; i < sizeof collected / sizeof collected[0]; i++) {
        begin_with(collected[i], 0);
        feed(NULL, 0);
        expect(no_frame(collected[i], 0, 0), "an empty piece at NULL leaves all as it is, %u collected", (unsigned)collected[i]);
        feed(none, 0);
        expect(no_frame(collected[i], 0, 0), "an empty piece leaves all as it is, %u collected", (unsigned)collected[i]);
    }
    begin_with(sizeof CLOSE, 0);
    lend(CLOSE, sizeof CLOSE);
    feed(NULL, 0);
    expect(no_frame(sizeof CLOSE, 0, 0), "an empty piece judges nothing, not a whole frame either");
}

/* Whole frames. */

/* A frame in one piece, then byte by byte. */
static void check_frame(const uint8_t *frame, size_t length, uint16_t kind)
{
    begin();
    feed(frame, length);
    due(0, frame, length);
    expect(whole(kind, (uint16_t)(length - DOCK_AROUND), length), "a frame of %zu bytes in one piece", length);
    begin();
    for (size_t i = 0; i + 1 < length; i++) {
        feed(frame + i, 1);
        due(i, frame + i, 1);
        expect(no_frame((uint16_t)(i + 1), 0, 1), "no frame after %zu of %zu bytes", i + 1, length);
    }
    feed(frame + length - 1, 1);
    due(length - 1, frame + length - 1, 1);
    expect(whole(kind, (uint16_t)(length - DOCK_AROUND), 1), "a frame of %zu bytes, byte by byte", length);
}

static void check_frames(void)
{
    check_frame(CLOSE, sizeof CLOSE, DOCK_COMMAND);
    check_frame(DONE, sizeof DONE, DOCK_RESPONSE);
    check_frame(NINE, sizeof NINE, DOCK_COMMAND);
    check_frame(EMPTY_COMMAND, sizeof EMPTY_COMMAND, DOCK_COMMAND);
    check_frame(EMPTY_RESPONSE, sizeof EMPTY_RESPONSE, DOCK_RESPONSE);
    check_frame(longest, put_frame(longest, DOCK_COMMAND, DOCK_LONGEST_BODY), DOCK_COMMAND);
    check_frame(longest, put_frame(longest, DOCK_RESPONSE, DOCK_LONGEST_BODY), DOCK_RESPONSE);
    for (size_t size = 0; size <= DOCK_LONGEST_BODY; size++) {
        begin();
        size_t length = put_frame(longest, DOCK_COMMAND, size);
        feed(longest, length);
        due(0, longest, length);
        expect(whole(DOCK_COMMAND, (uint16_t)size, length), "a frame with a body of %zu", size);
    }
}

/* Two frames and the beginning of a third in one piece: each call ends with its frame. */
static void check_rest_of_piece(void)
{
    uint8_t piece[sizeof CLOSE + sizeof EMPTY_RESPONSE + 3];
    memcpy(piece, CLOSE, sizeof CLOSE);
    memcpy(piece + sizeof CLOSE, EMPTY_RESPONSE, sizeof EMPTY_RESPONSE);
    memcpy(piece + sizeof CLOSE + sizeof EMPTY_RESPONSE, NINE, 3);
    begin();
    feed(piece, sizeof piece);
    due(0, CLOSE, sizeof CLOSE);
    expect(whole(DOCK_COMMAND, 4, sizeof CLOSE), "the first frame of the piece, and no byte of the second");
    feed(piece + sizeof CLOSE, sizeof piece - sizeof CLOSE);
    due(0, EMPTY_RESPONSE, sizeof EMPTY_RESPONSE);
    expect(whole(DOCK_RESPONSE, 0, sizeof EMPTY_RESPONSE), "the second frame of the piece, the end of the first still behind it");
    feed(piece + sizeof CLOSE + sizeof EMPTY_RESPONSE, 3);
    due(0, NINE, 3);
    expect(no_frame(3, 0, 3), "three bytes of the third frame");
    feed(NINE + 3, sizeof NINE - 3);
    due(3, NINE + 3, sizeof NINE - 3);
    expect(whole(DOCK_COMMAND, 9, sizeof NINE - 3), "the third frame, whole by the next piece");
}

/* Two frames, and which of them came whole so far. */
static uint8_t both[sizeof CLOSE + sizeof NINE];
static unsigned frames;

/* Whether the last call gave the frame that is due. */
static bool is_due(void)
{
    const uint8_t *frame = frames == 0 ? CLOSE : NINE;
    size_t size = frames == 0 ? 4 : 9;
    return frames < 2 && fed.kind == DOCK_COMMAND && fed.size == size && memcmp(now.frame + DOCK_HEAD, frame + DOCK_HEAD, size) == 0;
}

/* Hands over the bytes from a place up to another. */
static void hand_over(size_t at, size_t end)
{
    while (at < end) {
        feed(both + at, end - at);
        at += fed.taken;
        expect(fed.kind == 0 || is_due(), "frame %u by a cut at %zu", frames, end);
        frames += fed.kind != 0;
    }
}

static void check_cut(size_t first, size_t second)
{
    begin();
    frames = 0;
    hand_over(0, first);
    hand_over(first, second);
    hand_over(second, sizeof both);
    due(0, NINE, sizeof NINE);
    expect(frames == 2 && left(0, 0, fed.taken), "two frames, cut at %zu and %zu", first, second);
}

/* Every cut of two frames into three pieces gives both, and leaves the same. */
static void check_cuts(void)
{
    const size_t places = sizeof both + 1;
    memcpy(both, CLOSE, sizeof CLOSE);
    memcpy(both + sizeof CLOSE, NINE, sizeof NINE);
    for (size_t cut = 0; cut < places * places; cut++)
        if (cut / places <= cut % places)
            check_cut(cut / places, cut % places);
}

/* Faults. */

/* The stream stops with the number at this byte of the bytes, not before, and drops what follows. */
static void check_fault(const uint8_t *bytes, size_t length, size_t at, uint16_t number, const char *what)
{
    begin();
    feed(bytes, at);
    due(0, bytes, at);
    expect(no_frame((uint16_t)at, 0, at), "no fault before byte %zu of %s", at, what);
    feed(bytes + at, length - at);
    due(at, bytes + at, 1);
    expect(no_frame(0, number, length - at), "stop %u at byte %zu of %s, and the rest dropped", (unsigned)number, at, what);
    begin();
    feed(bytes, length);
    due(0, bytes, at + 1);
    expect(no_frame(0, number, length), "stop %u of %s in one piece", (unsigned)number, what);
    feed(CLOSE, sizeof CLOSE);
    expect(no_frame(0, number, sizeof CLOSE), "stop %u again of a right frame after %s, no byte stored", (unsigned)number, what);
    feed(NULL, 0);
    expect(no_frame(0, number, 0), "stop %u again of an empty piece after %s", (unsigned)number, what);
    now.stream = dock_start();
    feed(CLOSE, sizeof CLOSE);
    due(0, CLOSE, sizeof CLOSE);
    expect(whole(DOCK_COMMAND, 4, sizeof CLOSE), "the next frame after a reset, after %s", what);
}

static void check_lengths(void)
{
    uint8_t head[DOCK_HEAD + 1] = {0, 0, 0x03, 0x00, 0x55};
    for (unsigned length = 0; length < 0x10000; length += length < 0x700 || length > 0xFF00 ? 1 : 97) {
        put_low_first(head, length);
        if (length < DOCK_AROUND || length > DOCK_LONGEST_FRAME) {
            check_fault(head, sizeof head, 1, DOCK_BAD_LENGTH, "a bad length, an unknown kind behind it");
            continue;
        }
        begin();
        feed(head, 2);
        due(0, head, 2);
        expect(no_frame(2, 0, 2), "no fault of the length %u", length);
    }
}

static void check_kinds(void)
{
    uint8_t frame[DOCK_AROUND] = {DOCK_AROUND, 0x00, 0, 0, 0x55, 0x55};
    for (unsigned kind = 0; kind < 0x10000; kind += kind < 0x300 || kind > 0xFF00 ? 1 : 101) {
        put_low_first(frame + 2, kind);
        if (kind != DOCK_COMMAND && kind != DOCK_RESPONSE)
            check_fault(frame, sizeof frame, 3, DOCK_UNKNOWN_KIND, "an unknown kind, a bad check behind it");
        else
            check_fault(frame, sizeof frame, 5, DOCK_BAD_CHECK, "a bad check of no body");
    }
}

/* Each bit of a frame changed alone behind its head is a bad check, at its last byte. */
static void check_bits(void)
{
    uint8_t frame[sizeof NINE];
    for (size_t bit = 8 * DOCK_HEAD; bit < 8 * sizeof NINE; bit++) {
        memcpy(frame, NINE, sizeof NINE);
        frame[bit / 8] ^= (uint8_t)(1u << bit % 8);
        check_fault(frame, sizeof frame, sizeof frame - 1, DOCK_BAD_CHECK, "a frame with a bit changed");
    }
    put_frame(longest, DOCK_COMMAND, DOCK_LONGEST_BODY);
    longest[800] ^= 0x10;
    check_fault(longest, sizeof longest, sizeof longest - 1, DOCK_BAD_CHECK, "the longest frame with a bit changed");
}

/* The frames before a fault in the same piece come out; the one behind it does not. */
static void check_frames_before_fault(void)
{
    uint8_t piece[3 * sizeof CLOSE];
    memcpy(piece, CLOSE, sizeof CLOSE);
    memcpy(piece + sizeof CLOSE, CLOSE, sizeof CLOSE);
    memcpy(piece + 2 * sizeof CLOSE, CLOSE, sizeof CLOSE);
    piece[sizeof CLOSE + 4] = 0x70;
    begin();
    feed(piece, sizeof piece);
    due(0, CLOSE, sizeof CLOSE);
    expect(whole(DOCK_COMMAND, 4, sizeof CLOSE), "the frame before the fault");
    feed(piece + sizeof CLOSE, 2 * sizeof CLOSE);
    due(4, piece + sizeof CLOSE + 4, 1);
    expect(no_frame(0, DOCK_BAD_CHECK, 2 * sizeof CLOSE), "stop 3, and the frame behind the fault dropped");
}

/* Strange values. */

static void check_stopped(unsigned collected, unsigned stop)
{
    uint16_t number = stop > 3 ? 1 : (uint16_t)stop;
    begin_with((uint16_t)collected, (uint16_t)stop);
    feed(CLOSE, sizeof CLOSE);
    expect(no_frame(0, number, sizeof CLOSE), "stop %u of the value %u/%u, no byte stored", (unsigned)number, collected, stop);
    begin_with((uint16_t)collected, (uint16_t)stop);
    feed(NULL, 0);
    expect(no_frame(0, number, 0), "stop %u of the value %u/%u by an empty piece", (unsigned)number, collected, stop);
}

static void check_stopped_values(void)
{
    for (unsigned stop = 1; stop < 0x10000; stop += stop < 0x200 || stop > 0xFF00 ? 1 : 89) {
        check_stopped(0, stop);
        check_stopped(5, stop);
        check_stopped(DOCK_LONGEST_FRAME, stop);
        check_stopped(0xFFFF, stop);
    }
}

static void check_full_values(void)
{
    put_frame(longest, DOCK_COMMAND, DOCK_LONGEST_BODY);
    for (unsigned collected = DOCK_LONGEST_FRAME; collected < 0x10000; collected += collected < 0x700 || collected > 0xFF00 ? 1 : 83) {
        begin_with((uint16_t)collected, 0);
        lend(longest, sizeof longest);
        feed(CLOSE, sizeof CLOSE);
        expect(no_frame(0, DOCK_BAD_LENGTH, sizeof CLOSE), "stop 1 with %u collected, no byte stored", collected);
    }
    begin_with(DOCK_LONGEST_FRAME - 1, 0);
    lend(longest, sizeof longest);
    feed(longest + DOCK_LONGEST_FRAME - 1, 1);
    expect(whole(DOCK_COMMAND, DOCK_LONGEST_BODY, 1), "the longest frame with its last byte still to come");
}

/* Lent bytes that the host has changed, judged with the next byte: the length first, then the kind, then the check. */
static void check_changed_bytes(void)
{
    static const struct {
        uint8_t front[DOCK_HEAD + 2];
        uint16_t collected;
        uint16_t stop;
        const char *what;
    } CASES[] = {
        {{0x05, 0x00, 0x01, 0x00}, 3, DOCK_BAD_LENGTH, "a length of 5, seen at the fourth byte"},
        {{0x1C, 0x06, 0x01, 0x00}, 8, DOCK_BAD_LENGTH, "a length of 1,564, seen at the ninth byte"},
        {{0x1C, 0x06, 0x07, 0x00}, 8, DOCK_BAD_LENGTH, "a length of 1,564 before an unknown kind"},
        {{0x08, 0x00, 0x01, 0x00}, 8, DOCK_BAD_LENGTH, "a length of 8 with 9 collected"},
        {{0x08, 0x00, 0x01, 0x00}, 700, DOCK_BAD_LENGTH, "a length of 8 with 701 collected"},
        {{0x06, 0x00, 0x07, 0x00}, 6, DOCK_BAD_LENGTH, "a length of 6 with 7 collected before an unknown kind"},
        {{0x1B, 0x06, 0x07, 0x00}, 8, DOCK_UNKNOWN_KIND, "an unknown kind, seen at the ninth byte"},
        {{0x09, 0x00, 0x00, 0x00}, 8, DOCK_UNKNOWN_KIND, "the kind 0000 before a bad check"},
        {{0x09, 0x00, 0x02, 0x00}, 8, DOCK_BAD_CHECK, "a check that is not that of the changed bytes"},
        {{0x0A, 0x00, 0x01, 0x00}, 8, DOCK_RUNNING, "a right head with a byte still to come"},
        {{0x05, 0x00}, 0, DOCK_RUNNING, "bytes behind those that are collected"}
    };
    static const uint8_t byte = 0x55;
    for (size_t i = 0; i < sizeof CASES / sizeof CASES[0]; i++) {
        bool running = CASES[i].stop == DOCK_RUNNING;
        begin_with(CASES[i].collected, 0);
        lend(CASES[i].front, sizeof CASES[i].front);
        feed(&byte, 1);
        due(CASES[i].collected, &byte, 1);
        expect(no_frame(running ? (uint16_t)(CASES[i].collected + 1) : 0, CASES[i].stop, 1), "stop %u of %s", (unsigned)CASES[i].stop, CASES[i].what);
    }
    begin_with(sizeof CLOSE - 1, 0);
    lend(CLOSE, sizeof CLOSE);
    feed(CLOSE + sizeof CLOSE - 1, 1);
    expect(whole(DOCK_COMMAND, 4, 1), "a frame whose first bytes the host has put there");
}

/* Long pieces. */

/* 70,000 bytes of the smallest frames: each call takes one, and all come out. */
static void check_many_frames(void)
{
    const size_t frames = LONG_PIECE / sizeof EMPTY_COMMAND;
    size_t at = 0;
    for (size_t i = 0; i < LONG_PIECE; i++)
        long_piece[i] = EMPTY_COMMAND[i % sizeof EMPTY_COMMAND];
    begin();
    due(0, EMPTY_COMMAND, sizeof EMPTY_COMMAND);
    for (size_t i = 0; i < frames; i++) {
        feed(long_piece + at, LONG_PIECE - at);
        at += fed.taken;
        expect(whole(DOCK_COMMAND, 0, sizeof EMPTY_COMMAND), "frame %zu of a piece of 70,000 bytes", i);
    }
    feed(long_piece + at, LONG_PIECE - at);
    expect(no_frame((uint16_t)(LONG_PIECE - at), 0, LONG_PIECE - at), "%zu bytes left over of a piece of 70,000", LONG_PIECE - at);
}

/* A fault in front of 70,000 bytes: all are taken, in one call. */
static void check_many_dropped(void)
{
    memset(long_piece, 0xFF, sizeof long_piece);
    begin();
    feed(long_piece, sizeof long_piece);
    due(0, long_piece, 2);
    expect(no_frame(0, DOCK_BAD_LENGTH, LONG_PIECE), "stop 1, and 70,000 bytes taken");
    feed(long_piece, sizeof long_piece);
    expect(no_frame(0, DOCK_BAD_LENGTH, LONG_PIECE), "70,000 bytes taken by a stream that has stopped");
    feed(long_piece, 65536);
    expect(no_frame(0, DOCK_BAD_LENGTH, 65536), "65,536 bytes taken by a stream that has stopped");
}

/* The writers. */

static uint8_t write_to(uint8_t *room, size_t length, unsigned kind, const uint8_t *bytes, size_t size)
{
    return (kind == DOCK_COMMAND ? dock_write_command : dock_write_response)(bytes, size, room, length);
}

static uint8_t write_frame(unsigned kind, const uint8_t *bytes, size_t size, size_t room)
{
    return write_to(now.room, room, kind, bytes, size);
}

static bool unchanged(void)
{
    return memcmp(&now, &was, sizeof now) == 0;
}

/* Refused with the number, the room untouched. */
static bool refused(uint8_t number, unsigned kind, size_t size, size_t room)
{
    return write_frame(kind, long_piece, size, room) == number && unchanged();
}

/* A body in a room of exactly its frame, up to ten bytes too few, and some more; what is written is read back. */
static void check_write(unsigned kind, size_t size)
{
    size_t length = put_frame(longest, kind, size);
    begin();
    for (size_t room = length < 10 ? 0 : length - 10; room < length; room++)
        expect(refused(DOCK_ROOM_TOO_SMALL, kind, size, room), "2 and the room untouched for a body of %zu in %zu bytes", size, room);
    memcpy(was.room, longest, length);
    expect(write_frame(kind, body, size, length) == DOCK_WRITTEN && unchanged(), "a body of %zu in a room of exactly its frame", size);
    begin();
    memcpy(was.room, longest, length);
    expect(write_frame(kind, body, size, sizeof now.room) == DOCK_WRITTEN && unchanged(), "a body of %zu, the rest of the room as it was", size);
    feed(now.room, length);
    due(0, longest, length);
    expect(whole((uint16_t)kind, (uint16_t)size, length), "a body of %zu read back", size);
}

static void check_writes(unsigned kind)
{
    for (size_t size = 0; size <= DOCK_LONGEST_BODY; size += size < 40 || size > 1500 ? 1 : 37)
        check_write(kind, size);
    begin();
    expect(refused(DOCK_BODY_TOO_LONG, kind, DOCK_LONGEST_BODY + 1, sizeof now.room), "1 and the room untouched for a body of 1,558");
    expect(refused(DOCK_BODY_TOO_LONG, kind, DOCK_LONGEST_BODY + 1, 0), "1 before 2");
    expect(refused(DOCK_BODY_TOO_LONG, kind, 65536, sizeof now.room), "1 for a body of 65,536");
    expect(refused(DOCK_BODY_TOO_LONG, kind, LONG_PIECE, sizeof now.room), "1 for a body of 70,000");
    expect(write_to(NULL, 0, kind, body, DOCK_LONGEST_BODY + 1) == DOCK_BODY_TOO_LONG, "1 with no room at NULL");
    expect(write_to(NULL, 0, kind, body, 0) == DOCK_ROOM_TOO_SMALL, "2 with no room at NULL");
    expect(write_frame(kind, NULL, 0, DOCK_AROUND - 1) == DOCK_ROOM_TOO_SMALL && unchanged(), "2 for no body at NULL in a room of 5");
    put_frame(was.room, kind, 0);
    expect(write_frame(kind, NULL, 0, DOCK_AROUND) == DOCK_WRITTEN && unchanged(), "a frame of no body at NULL");
}

static void check_written_by_hand(void)
{
    begin();
    memcpy(was.room, NINE, sizeof NINE);
    expect(dock_write_command((const uint8_t *)"123456789", 9, now.room, sizeof NINE) == DOCK_WRITTEN && unchanged(), "the command \"123456789\"");
    begin();
    memcpy(was.room, DONE, sizeof DONE);
    expect(dock_write_response(DONE + DOCK_HEAD, 4, now.room, sizeof DONE) == DOCK_WRITTEN && unchanged(), "the response 00 00 00 00");
}

int main(void)
{
    fill_body();
    check_constants();
    check_empty_pieces();
    check_frames();
    check_rest_of_piece();
    check_cuts();
    check_lengths();
    check_kinds();
    check_bits();
    check_frames_before_fault();
    check_stopped_values();
    check_full_values();
    check_changed_bytes();
    check_many_frames();
    check_many_dropped();
    check_writes(DOCK_COMMAND);
    check_writes(DOCK_RESPONSE);
    check_written_by_hand();
    printf("%u checks hold\n", checks);
    return 0;
}
