/*
 * Every misuse of the C interface that its types allow, each with the answer that include/element.h and docs/FORMATS.md give, written by hand;
 * then the header's helpers and constants, short reads, counters, and queues.
 * Prints the number of checks; at the first that fails, what was expected, and exits 1.
 *
 *   gcc -std=c99 -O2 -Iinclude tests/misuse.c target/staticlib/libfirmware.a -o misuse
 */
#include <stdarg.h>
#include <stdio.h>
#include <stdlib.h>
#include <string.h>

#include "element.h"

enum {
    STORE = ELEMENT_FACTORY_STORE_SIZE,
    ROOM = 64,
    FILL = 0xEE,
    OLD_ERROR = 0x02,  /* a last error that is no refusal: above 01, below the others */
    METADATA_SIZE = 28 /* the response to a get of the factory's metadata */
};

/* All that a call may change, with bytes around it that it may not. */
typedef struct fixture {
    uint8_t before[16];
    uint8_t store[STORE];
    uint8_t between[16];
    uint8_t room[ROOM];
    uint8_t outcomes[8];
    uint8_t behind[16];
    element_session session;
} fixture;

static const uint8_t OPEN[] = {0x70, 0x00, 0x00, 0x10, 0xD2, 0x76, 0x00, 0x00, 0x04, 0x47, 0x65, 0x6E, 0x41, 0x75, 0x74, 0x68, 0x41, 0x70, 0x70, 0x6C};
static const uint8_t OPEN_OTHER[] = {0x70, 0x00, 0x00, 0x10, 0xD2, 0x76, 0x00, 0x00, 0x04, 0x47, 0x65, 0x6E, 0x41, 0x75, 0x74, 0x68, 0x41, 0x70, 0x70, 0x6D};
static const uint8_t CLOSE[] = {0x71, 0x00, 0x00, 0x00};
static const uint8_t METADATA[] = {0x01, 0x01, 0x00, 0x02, 0xF1, 0xD0};
static const uint8_t FLUSHED_METADATA[] = {0x81, 0x01, 0x00, 0x02, 0xF1, 0xD0};
static const uint8_t NO_OBJECT[] = {0x01, 0x01, 0x00, 0x02, 0x12, 0x34};
static const uint8_t FLUSHED_NO_OBJECT[] = {0x81, 0x01, 0x00, 0x02, 0x12, 0x34};
static const uint8_t READ_ERROR[] = {0x01, 0x00, 0x00, 0x06, 0xF1, 0xC2, 0x00, 0x00, 0x00, 0x01};
static const uint8_t WRITE[] = {0x02, 0x00, 0x00, 0x06, 0xF1, 0xD0, 0x00, 0x00, 0xAB, 0xCD};
static const uint8_t WRITE_PAST[] = {0x02, 0x00, 0x00, 0x06, 0xF1, 0xD0, 0x00, 0x8B, 0xAB, 0xCD};
static const uint8_t READ_PAST[] = {0x01, 0x00, 0x00, 0x06, 0xF1, 0xD0, 0x00, 0x01, 0x00, 0x00};
static const uint8_t READ_BACK[] = {0x01, 0x00, 0x00, 0x06, 0xF1, 0xD0, 0x00, 0x00, 0x00, 0x02};
static const uint8_t READ_ALL[] = {0x01, 0x00, 0x00, 0x06, 0xF1, 0xD0, 0x00, 0x00, 0xFF, 0xFF};

/* The answers. */
static const uint8_t DONE[] = {0x00, 0x00, 0x00, 0x00};
static const uint8_t REFUSED[] = {0xFF, 0x00, 0x00, 0x00};
static const uint8_t METADATA_ANSWER[METADATA_SIZE] = {
    0x00, 0x00, 0x00, 0x18, 0x20, 0x16, 0xC0, 0x01, 0x01, 0xC4, 0x02, 0x00, 0x8C, 0xC5, 0x02, 0x00, 0x00, 0xD0, 0x03, 0xE1, 0xFC, 0x07,
    0xD1, 0x01, 0x00, 0xD3, 0x01, 0x00
};

static fixture now;
static fixture was;
static unsigned checks;

static void expect(bool holds, const char *expected, ...)
{
    va_list values;
    checks++;
    if (holds)
        return;
    printf("check %u: expected ", checks);
    va_start(values, expected);
    vprintf(expected, values);
    va_end(values);
    putchar('\n');
    exit(1);
}

/* The factory store, a session, and rooms full of FILL; what stands in `was` is the same. */
static void begin(uint8_t opened, uint8_t lcsg, uint8_t lcsa, uint8_t error)
{
    memset(&now, FILL, sizeof now);
    if (element_make_factory_store(now.store, STORE) != ELEMENT_ANSWERED) {
        puts("the factory store cannot be made");
        exit(1);
    }
    now.session.opened = opened;
    now.session.lcsg = lcsg;
    now.session.lcsa = lcsa;
    now.session.error = error;
    was = now;
}

static void begin_open(void)
{
    begin(1, 1, 1, OLD_ERROR);
}

static uint8_t execute(const uint8_t *command, size_t length, size_t room)
{
    return element_execute(command, length, now.store, STORE, &now.session, now.room, room);
}

static bool unchanged(void)
{
    return memcmp(&now, &was, sizeof now) == 0;
}

static void put_was_session(uint8_t opened, uint8_t error)
{
    was.session.opened = opened;
    was.session.error = error;
}

/* Whether the response stands at the front of the room, and nothing but it, opened and the last error is changed. */
static bool left(const uint8_t *response, size_t length, uint8_t opened, uint8_t error)
{
    memcpy(was.room, response, length);
    put_was_session(opened, error);
    return unchanged();
}

static bool refused(uint8_t error)
{
    return left(REFUSED, sizeof REFUSED, was.session.opened, error);
}

static uint8_t larger(uint8_t a, uint8_t b)
{
    return a > b ? a : b;
}

static bool is_state(unsigned byte)
{
    return byte == 0x01 || byte == 0x03 || byte == 0x07 || byte == 0x0F;
}

/* NULL with length 0. */

static void check_null_without_length(void)
{
    begin_open();
    expect(execute(NULL, 0, ROOM) == 0, "outcome 0 for no command at NULL");
    expect(refused(0x04), "refusal 04 for no command at NULL");

    begin_open();
    expect(element_execute(METADATA, sizeof METADATA, NULL, 0, &now.session, now.room, ROOM) == 0, "outcome 0 for no store at NULL");
    expect(refused(0x06), "refusal 06 for no store at NULL");

    begin_open();
    expect(element_execute(FLUSHED_METADATA, sizeof FLUSHED_METADATA, now.store, STORE, &now.session, NULL, 0) == 1,
        "outcome 1 for no room at NULL");
    expect(unchanged(), "nothing changed for no room at NULL");

    begin_open();
    expect(element_execute(NULL, 0, NULL, 0, &now.session, NULL, 0) == 1, "outcome 1 for nothing but a session");
    expect(unchanged(), "the session unchanged for nothing but a session");

    begin_open();
    expect(element_execute(NULL, 0, NULL, 0, &now.session, now.room, ROOM) == 0, "outcome 0 for no command and no store");
    expect(refused(0x06), "refusal 06 for no command and no store");

    expect(!element_check_store(NULL, 0), "a store of no bytes is malformed");
    expect(element_make_factory_store(NULL, 0) == 2, "outcome 2 for a factory store of no bytes");
}

static void check_null_lists(void)
{
    begin_open();
    expect(element_run(NULL, 0, NULL, 0, NULL, 0, &now.session, NULL, 0, NULL, 0, NULL, 0) == 0, "outcome 0 for a list of nothing");
    expect(unchanged(), "the session unchanged by a list of nothing");

    static const size_t sizes[] = {0};
    static const size_t spaces[] = {4};
    begin_open();
    expect(element_run(NULL, 0, sizes, 1, now.store, STORE, &now.session, now.room, 4, spaces, 1, now.outcomes, 1) == 0,
        "outcome 0 for a list of one empty command at NULL");
    was.outcomes[0] = 0;
    expect(refused(0x04), "refusal 04 for a list of one empty command at NULL");

    begin_open();
    expect(element_run(NULL, 0, sizes, 1, now.store, STORE, &now.session, NULL, 0, sizes, 1, now.outcomes, 1) == 0,
        "outcome 0 for a list with no rooms at NULL");
    was.outcomes[0] = 1;
    expect(unchanged(), "outcome 1 of the command, and nothing else changed, for a list with no rooms at NULL");

    begin_open();
    expect(element_run(NULL, 0, NULL, 0, now.store, STORE, &now.session, now.room, 4, spaces, 1, now.outcomes, 1) == 2,
        "outcome 2 for a list without sizes");
    expect(unchanged(), "nothing changed for a list without sizes");
}

/* NULL with a length, by the _checked functions. */

static uint8_t checked(const uint8_t *command, size_t length, uint8_t *store, element_session *session, uint8_t *room)
{
    return element_execute_checked(command, length, store, STORE, session, room, ROOM);
}

static void check_null_with_length(void)
{
    const uint8_t *flushed = FLUSHED_NO_OBJECT;
    size_t length = sizeof FLUSHED_NO_OBJECT;

    begin_open();
    expect(checked(NULL, length, now.store, &now.session, now.room) == 2 && unchanged(),
        "outcome 2 and nothing changed for a NULL command");
    expect(checked(NULL, SIZE_MAX, now.store, &now.session, now.room) == 2 && unchanged(),
        "outcome 2 and nothing changed for a NULL command of SIZE_MAX bytes");
    expect(checked(flushed, length, NULL, &now.session, now.room) == 2 && unchanged(), "outcome 2 and nothing changed for a NULL store");
    expect(checked(flushed, length, now.store, NULL, now.room) == 2 && unchanged(), "outcome 2 and nothing changed for a NULL session");
    expect(checked(flushed, length, now.store, &now.session, NULL) == 2 && unchanged(), "outcome 2 and nothing changed for a NULL room");
    expect(checked(NULL, length, NULL, NULL, NULL) == 2 && unchanged(), "outcome 2 and nothing changed for NULL everywhere");
    for (size_t room = 0; room <= ELEMENT_LEAST_ROOM; room++)
        expect(element_execute_checked(flushed, length, now.store, STORE, &now.session, NULL, room) == 2 && unchanged(),
            "outcome 2 and nothing changed for a NULL room of %zu", room);

    expect(element_execute_checked(flushed, length, now.store, STORE, NULL, now.room, 3) == 2 && unchanged(),
        "outcome 2 for a NULL session before 1 for a room of 3");
    expect(element_execute_checked(flushed, length, now.store, STORE, &now.session, now.room, 3) == 1 && unchanged(),
        "outcome 1 and nothing changed for a room of 3, checked");

    expect(checked(NULL, 0, now.store, &now.session, now.room) == 0 && refused(0x04), "refusal 04 for no command at NULL, checked");
    begin_open();
    expect(element_execute_checked(flushed, length, NULL, 0, &now.session, now.room, ROOM) == 0 && refused(0x06),
        "refusal 06 for no store at NULL, checked");
    begin_open();
    expect(checked(flushed, length, now.store, &now.session, now.room) == 0 && refused(0x01), "refusal 01 after a flush, checked");

    expect(!element_check_store_checked(NULL, STORE) && !element_check_store_checked(NULL, 0), "a NULL store is malformed, checked");
    expect(element_check_store_checked(now.store, STORE), "the factory store is well formed, checked");
    expect(element_make_factory_store_checked(NULL, STORE) == 2 && element_make_factory_store_checked(NULL, 0) == 2,
        "outcome 2 for a NULL factory store, checked");
    memset(now.store, FILL, STORE);
    expect(element_make_factory_store_checked(now.store, STORE) == 0 && unchanged(), "the factory store made, checked");
}

static const size_t ONE_SIZE[] = {sizeof FLUSHED_NO_OBJECT};
static const size_t ONE_SPACE[] = {4};

static uint8_t run_checked(const uint8_t *commands, const size_t *sizes, uint8_t *store, element_session *session, uint8_t *rooms, const size_t *spaces, uint8_t *outcomes)
{
    return element_run_checked(commands, sizeof FLUSHED_NO_OBJECT, sizes, 1, store, STORE, session, rooms, 4, spaces, 1, outcomes, 1);
}

static void check_null_lists_with_length(void)
{
    const uint8_t *list = FLUSHED_NO_OBJECT;

    begin_open();
    expect(run_checked(NULL, ONE_SIZE, now.store, &now.session, now.room, ONE_SPACE, now.outcomes) == 2 && unchanged(),
        "outcome 2 and nothing changed for a list of NULL commands");
    expect(run_checked(list, NULL, now.store, &now.session, now.room, ONE_SPACE, now.outcomes) == 2 && unchanged(),
        "outcome 2 and nothing changed for a list with NULL sizes");
    expect(run_checked(list, ONE_SIZE, NULL, &now.session, now.room, ONE_SPACE, now.outcomes) == 2 && unchanged(),
        "outcome 2 and nothing changed for a list on a NULL store");
    expect(run_checked(list, ONE_SIZE, now.store, NULL, now.room, ONE_SPACE, now.outcomes) == 2 && unchanged(),
        "outcome 2 and nothing changed for a list on a NULL session");
    expect(run_checked(list, ONE_SIZE, now.store, &now.session, NULL, ONE_SPACE, now.outcomes) == 2 && unchanged(),
        "outcome 2 and nothing changed for a list with NULL rooms");
    expect(run_checked(list, ONE_SIZE, now.store, &now.session, now.room, NULL, now.outcomes) == 2 && unchanged(),
        "outcome 2 and nothing changed for a list with NULL spaces");
    expect(run_checked(list, ONE_SIZE, now.store, &now.session, now.room, ONE_SPACE, NULL) == 2 && unchanged(),
        "outcome 2 and nothing changed for a list with NULL outcomes");
    expect(run_checked(NULL, NULL, NULL, NULL, NULL, NULL, NULL) == 2 && unchanged(),
        "outcome 2 and nothing changed for a list with NULL everywhere");
    expect(element_run_checked(NULL, 0, NULL, 0, NULL, 0, NULL, NULL, 0, NULL, 0, NULL, 0) == 2 && unchanged(),
        "outcome 2 for a NULL session with a list of nothing");
    expect(run_checked(list, ONE_SIZE, now.store, &now.session, now.room, ONE_SPACE, now.outcomes) == 0,
        "outcome 0 for a list of one, checked");
    was.outcomes[0] = 0;
    expect(refused(0x01), "refusal 01 after a flush for a list of one, checked");
    begin_open();
    expect(element_run_checked(NULL, 0, NULL, 0, NULL, 0, &now.session, NULL, 0, NULL, 0, NULL, 0) == 0 && unchanged(),
        "outcome 0 and nothing changed for a list of nothing, checked");
}

/* Whether a command was done, and a refused one's own number. */

static void check_is_done(void)
{
    begin_open();
    expect(element_is_done(execute(METADATA, sizeof METADATA, ROOM), now.room), "a get that is answered is done");
    begin_open();
    expect(!element_is_done(execute(NO_OBJECT, sizeof NO_OBJECT, ROOM), now.room), "a refused get is not done");
    begin_open();
    now.room[0] = ELEMENT_STATUS_DONE;
    expect(!element_is_done(execute(METADATA, sizeof METADATA, 3), now.room), "outcome 1 is not done, whatever stands in the room");
    expect(!element_is_done(element_execute(METADATA, sizeof METADATA, now.store, STORE, &now.session, NULL, 0), NULL),
        "outcome 1 with no room at NULL is not done");
    expect(!element_is_done(ELEMENT_WRONG_SIZE, now.room) && !element_is_done(ELEMENT_WRONG_SIZE, NULL), "outcome 2 is not done");
}

static uint8_t refusal_of(const uint8_t *command, size_t length, size_t room)
{
    return element_refusal_of(command, length, now.store, STORE, &now.session, now.room, room);
}

/* The command is refused with this number, whatever the last error and with the flush bit too; asking for the number changes nothing. */
static void check_own_number(uint8_t number, const uint8_t *command, size_t length, size_t room, uint8_t opened, uint8_t lcsa)
{
    uint8_t flushing[32];
    for (unsigned error = 0; error < 256; error++) {
        begin(opened, 1, lcsa, (uint8_t)error);
        expect(execute(command, length, room) == 0 && refused(larger((uint8_t)error, number)),
            "refusal %02X with the last error %02X", number, error);
        expect(refusal_of(command, length, room) == number && unchanged(),
            "the number %02X and nothing changed with the last error %02X", number, error);
    }
    if (length == 0)
        return;
    memcpy(flushing, command, length);
    flushing[0] |= ELEMENT_FLUSH;
    begin(opened, 1, lcsa, 0xFF);
    expect(execute(flushing, length, room) == 0 && refused(number), "the last error %02X after a refused command with the flush bit", number);
    expect(refusal_of(flushing, length, room) == number && unchanged(),
        "the number %02X and nothing changed for a command with the flush bit", number);
}

static void check_own_numbers(void)
{
    static const uint8_t no_param[] = {0x01, 0x02, 0x00, 0x02, 0xF1, 0xD0};
    static const uint8_t bad_tag[] = {0x02, 0x01, 0x00, 0x07, 0xF1, 0xD0, 0x20, 0x03, 0xC1, 0x01, 0x07};
    static const uint8_t write_error[] = {0x02, 0x00, 0x00, 0x05, 0xF1, 0xC2, 0x00, 0x00, 0x00};
    static const uint8_t no_cmd[] = {0x05, 0x00, 0x00, 0x00};
    check_own_number(ELEMENT_INVALID_OBJECT, NO_OBJECT, sizeof NO_OBJECT, ROOM, 1, 1);
    check_own_number(ELEMENT_INVALID_PARAM, no_param, sizeof no_param, ROOM, 1, 1);
    check_own_number(ELEMENT_INVALID_LENGTH, NULL, 0, ROOM, 1, 1);
    check_own_number(ELEMENT_INVALID_LENGTH, METADATA, sizeof METADATA - 1, ROOM, 1, 1);
    check_own_number(ELEMENT_INVALID_DATA, OPEN_OTHER, sizeof OPEN_OTHER, ROOM, 0, 1);
    check_own_number(ELEMENT_INVALID_DATA, bad_tag, sizeof bad_tag, ROOM, 1, 1);
    check_own_number(ELEMENT_INTERNAL_ERROR, METADATA, sizeof METADATA, ROOM, 1, 2);
    check_own_number(ELEMENT_ACCESS_DENIED, write_error, sizeof write_error, ROOM, 1, 1);
    check_own_number(ELEMENT_BOUNDARY_EXCEEDED, WRITE_PAST, sizeof WRITE_PAST, ROOM, 1, 1);
    check_own_number(ELEMENT_BOUNDARY_EXCEEDED, READ_PAST, sizeof READ_PAST, ROOM, 1, 1);
    check_own_number(ELEMENT_INVALID_COMMAND, no_cmd, sizeof no_cmd, ROOM, 1, 1);
    check_own_number(ELEMENT_NOT_AVAILABLE, METADATA, sizeof METADATA, ROOM, 0x2A, ELEMENT_TERMINATION);
    check_own_number(ELEMENT_NOT_AVAILABLE, CLOSE, sizeof CLOSE, ROOM, 0, 1);
    check_own_number(ELEMENT_INSUFFICIENT_BUFFER, METADATA, sizeof METADATA, ELEMENT_LEAST_ROOM, 1, 1);
    check_own_number(ELEMENT_INSUFFICIENT_BUFFER, READ_ERROR, sizeof READ_ERROR, ELEMENT_LEAST_ROOM, 1, 1);
}

/* A command that was not refused has no number, and is not carried out again. */
static void check_no_number(void)
{
    begin_open();
    expect(execute(WRITE, sizeof WRITE, ROOM) == 0, "outcome 0 for a write");
    was = now;
    now.store[96] = was.store[96] = 0x55;
    expect(refusal_of(WRITE, sizeof WRITE, ROOM) == 0 && unchanged(), "number 0 and no second write for a write that is done");
    begin_open();
    now.room[0] = was.room[0] = ELEMENT_STATUS_REFUSED;
    for (size_t room = 0; room < ELEMENT_LEAST_ROOM; room++)
        expect(execute(WRITE, sizeof WRITE, room) == 1 && refusal_of(WRITE, sizeof WRITE, room) == 0 && unchanged(),
            "number 0 and nothing changed with a room of %zu", room);
    expect(element_refusal_of(WRITE, sizeof WRITE, now.store, STORE, &now.session, NULL, 0) == 0 && unchanged(),
        "number 0 and nothing changed with no room at NULL");
}

/* The header's constants, as bytes and by what the library does with them. */

static void check_constants(void)
{
    static const uint8_t tags[] = {
        ELEMENT_TAG_METADATA, ELEMENT_TAG_LCSO, ELEMENT_TAG_MAXIMUM, ELEMENT_TAG_USED, ELEMENT_TAG_CHANGE, ELEMENT_TAG_READ, ELEMENT_TAG_EXECUTE
    };
    static const uint8_t expressions[] = {
        ELEMENT_ALWAYS, ELEMENT_CONDITION_COUNTER, ELEMENT_CONDITION_LCSG, ELEMENT_CONDITION_LCSA, ELEMENT_CONDITION_LCSO, ELEMENT_EQUAL, ELEMENT_GREATER, ELEMENT_LESS,
        ELEMENT_AND, ELEMENT_OR, ELEMENT_NEVER
    };
    expect(ELEMENT_VERSION_MAJOR == 3 && ELEMENT_VERSION_MINOR == 2, "version 3.2");
    expect(ELEMENT_WHOLE == 0xFFFF, "the length that asks for all");
    expect(ELEMENT_KIND_DATA == 1 && ELEMENT_KIND_COUNTER_UP == 2 && ELEMENT_KIND_QUEUE == 3 && ELEMENT_KIND_COUNTER_DOWN == 4, "the kinds of records");
    expect(ELEMENT_COUNT == 2 && ELEMENT_COUNTER_SIZE == 8, "the Param of a count and the size of a counter");
    expect(ELEMENT_APPEND == 4 && ELEMENT_ACKNOWLEDGE == 5, "the Params of an append and an acknowledge");
    expect(ELEMENT_QUEUE_HEAD == 4 && ELEMENT_FARE_HEAD == 8 && ELEMENT_FARE_KIND == 1 && ELEMENT_LARGEST_BODY == 200, "the sizes of a queue");
    expect(ELEMENT_NO_NUMBER == UINT32_MAX, "the number that no fare has");
    expect(memcmp(tags, "\x20\xC0\xC4\xC5\xD0\xD1\xD3", sizeof tags) == 0, "the metadata tags");
    expect(memcmp(expressions, "\x00\x40\x70\xE0\xE1\xFA\xFB\xFC\xFD\xFE\xFF", sizeof expressions) == 0, "the bytes of expressions");
    expect(ELEMENT_MAXIMUM_F1DX == 140 && ELEMENT_MAXIMUM_F1EX == 1500 && ELEMENT_FACTORY_OBJECTS == 14, "the factory's sizes");
}

static void check_factory_objects(void)
{
    static const unsigned numbers[ELEMENT_FACTORY_OBJECTS] = {
        ELEMENT_OBJECT_F1D0, ELEMENT_OBJECT_F1D1, ELEMENT_OBJECT_F1D2, ELEMENT_OBJECT_F1D3, ELEMENT_OBJECT_F1D4, ELEMENT_OBJECT_F1D5,
        ELEMENT_OBJECT_F1D6, ELEMENT_OBJECT_F1D7, ELEMENT_OBJECT_F1D8, ELEMENT_OBJECT_F1D9, ELEMENT_OBJECT_F1DA, ELEMENT_OBJECT_F1DB,
        ELEMENT_OBJECT_F1E0, ELEMENT_OBJECT_F1E1
    };
    size_t at = 0;
    for (size_t i = 0; i < ELEMENT_FACTORY_OBJECTS; i++) {
        const unsigned maximum = i < 12 ? ELEMENT_MAXIMUM_F1DX : ELEMENT_MAXIMUM_F1EX;
        const uint8_t get[] = {ELEMENT_GET, ELEMENT_METADATA, 0x00, 0x02, (uint8_t)(numbers[i] >> 8), (uint8_t)numbers[i]};
        const uint8_t answer[METADATA_SIZE] = {
            ELEMENT_STATUS_DONE, 0x00, 0x00, 0x18, ELEMENT_TAG_METADATA, 0x16,
            ELEMENT_TAG_LCSO, 0x01, ELEMENT_CREATION,
            ELEMENT_TAG_MAXIMUM, 0x02, (uint8_t)(maximum >> 8), (uint8_t)maximum,
            ELEMENT_TAG_USED, 0x02, 0x00, 0x00,
            ELEMENT_TAG_CHANGE, 0x03, ELEMENT_CONDITION_LCSO, ELEMENT_LESS, ELEMENT_OPERATIONAL,
            ELEMENT_TAG_READ, 0x01, ELEMENT_ALWAYS,
            ELEMENT_TAG_EXECUTE, 0x01, ELEMENT_ALWAYS
        };
        begin_open();
        expect(execute(get, sizeof get, ROOM) == 0 && left(answer, sizeof answer, 1, OLD_ERROR), "the factory metadata of %04X", numbers[i]);
        expect(now.store[at + 4] == (uint8_t)numbers[i] && now.store[at + 5] == numbers[i] >> 8, "the record of %04X at %zu", numbers[i], at);
        at += ELEMENT_RECORD_HEAD + maximum;
    }
    expect(at == ELEMENT_FACTORY_STORE_SIZE, "the factory store filled by fourteen records");
}

/* The longest expression, in the largest metadata: 7 conditions in 3 groups. One condition or one group more is refused 05. */

/* puts n conditions at the place, the last `ors` of their joins or, all others and; returns the bytes put */
static size_t put_conditions(uint8_t *place, size_t n, size_t ors)
{
    static const uint8_t of[] = {ELEMENT_CONDITION_LCSG, ELEMENT_CONDITION_LCSA, ELEMENT_CONDITION_LCSO};
    static const uint8_t how[] = {ELEMENT_EQUAL, ELEMENT_GREATER, ELEMENT_LESS};
    size_t at = 0;
    for (size_t i = 0; i < n; i++) {
        if (i != 0)
            place[at++] = i + ors < n ? ELEMENT_AND : ELEMENT_OR;
        place[at++] = of[i % 3];
        place[at++] = how[i / 3 % 3];
        place[at++] = ELEMENT_INITIALISATION;
    }
    return at;
}

/* a set of D1 of F1D0 */
static size_t make_set_read(uint8_t *command, size_t n, size_t ors)
{
    size_t length = put_conditions(command + 10, n, ors);
    const uint8_t front[] = {
        ELEMENT_SET, ELEMENT_METADATA, 0x00, (uint8_t)(6 + length), 0xF1, 0xD0,
        ELEMENT_TAG_METADATA, (uint8_t)(2 + length), ELEMENT_TAG_READ, (uint8_t)length
    };
    memcpy(command, front, sizeof front);
    return sizeof front + length;
}

static void check_expression_limits(void)
{
    uint8_t command[64];
    uint8_t longest[ELEMENT_LARGEST_EXPRESSION];
    uint8_t largest[ELEMENT_HEADER + ELEMENT_LARGEST_METADATA];
    size_t length;

    begin_open();
    length = make_set_read(command, ELEMENT_MOST_CONDITIONS, ELEMENT_MOST_GROUPS - 1);
    expect(length == 10 + ELEMENT_LARGEST_EXPRESSION, "7 conditions take 27 bytes");
    memcpy(longest, command + 10, sizeof longest);
    expect(element_is_done(execute(command, length, ROOM), now.room), "7 conditions in 3 groups taken");
    expect(now.store[40] == sizeof longest && memcmp(now.store + 41, longest, sizeof longest) == 0, "7 conditions in the slot for read");

    begin_open();
    length = make_set_read(command, ELEMENT_MOST_CONDITIONS + 1, 0);
    expect(execute(command, length, ROOM) == 0 && refused(0x05), "refusal 05 for 8 conditions");
    begin_open();
    length = make_set_read(command, ELEMENT_MOST_GROUPS + 1, ELEMENT_MOST_GROUPS);
    expect(execute(command, length, ROOM) == 0 && refused(0x05), "refusal 05 for 4 groups");

    begin_open();
    for (size_t slot = 0; slot < 3; slot++) {
        now.store[12 + ELEMENT_SLOT * slot] = sizeof longest;
        memcpy(now.store + 13 + ELEMENT_SLOT * slot, longest, sizeof longest);
    }
    was = now;
    expect(element_check_store(now.store, STORE), "a store with three longest expressions well formed");
    memset(largest, FILL, sizeof largest);
    expect(element_execute(METADATA, sizeof METADATA, now.store, STORE, &now.session, largest, sizeof largest - 1) == 0
            && memcmp(largest, REFUSED, 4) == 0 && now.session.error == 0x0D,
        "refusal 0D for the largest metadata with a byte of room too few");
    expect(element_is_done(element_execute(METADATA, sizeof METADATA, now.store, STORE, &now.session, largest, sizeof largest), largest),
        "the largest metadata fits");
    expect(largest[3] == ELEMENT_LARGEST_METADATA && largest[5] == ELEMENT_LARGEST_METADATA - 2, "the largest metadata is 100 bytes");
}

/* Rooms of 0 to 3 bytes. */

static void check_small_room(size_t room)
{
    begin_open();
    expect(execute(FLUSHED_METADATA, sizeof FLUSHED_METADATA, room) == 1, "outcome 1 for a get with a room of %zu", room);
    expect(unchanged(), "nothing changed, not even by the flush bit, with a room of %zu", room);
    expect(execute(FLUSHED_NO_OBJECT, sizeof FLUSHED_NO_OBJECT, room) == 1 && unchanged(),
        "outcome 1 and nothing changed for a refusal with a room of %zu", room);
    expect(execute(WRITE, sizeof WRITE, room) == 1 && unchanged(), "outcome 1 and nothing changed for a write with a room of %zu", room);
    expect(execute(CLOSE, sizeof CLOSE, room) == 1 && unchanged(), "outcome 1 and nothing changed for a close with a room of %zu", room);
    expect(execute(READ_ERROR, sizeof READ_ERROR, room) == 1 && unchanged(),
        "outcome 1 and nothing changed for a get of the last error with a room of %zu", room);
    expect(execute(NULL, 0, room) == 1 && unchanged(), "outcome 1 and nothing changed for an empty command with a room of %zu", room);

    begin(0, 1, 1, 0xFF);
    expect(execute(OPEN, sizeof OPEN, room) == 1 && unchanged(), "outcome 1 and nothing changed for an open with a room of %zu", room);
    begin(1, 0xAA, 0x55, 0xFF);
    expect(execute(FLUSHED_METADATA, sizeof FLUSHED_METADATA, room) == 1 && unchanged(),
        "outcome 1 before 06 for a session with no state and a room of %zu", room);
    begin_open();
    now.store[0] ^= 1;
    was = now;
    expect(execute(FLUSHED_METADATA, sizeof FLUSHED_METADATA, room) == 1 && unchanged(),
        "outcome 1 before 06 for a malformed store and a room of %zu", room);
}

static void check_small_rooms(void)
{
    for (size_t room = 0; room < ELEMENT_LEAST_ROOM; room++)
        check_small_room(room);
    for (size_t room = ELEMENT_LEAST_ROOM; room < METADATA_SIZE; room++) {
        begin_open();
        expect(execute(FLUSHED_METADATA, sizeof FLUSHED_METADATA, room) == 0 && refused(0x0D),
            "refusal 0D after a flush for metadata with a room of %zu", room);
    }
    begin_open();
    expect(execute(FLUSHED_METADATA, sizeof FLUSHED_METADATA, METADATA_SIZE) == 0 && left(METADATA_ANSWER, METADATA_SIZE, 1, 0),
        "the metadata after a flush with a room of 28");
}

/* A room of more than 16 bits of length: the response at its front, the rest untouched. */
static void check_large_room(void)
{
    static uint8_t room[70000];
    memset(room, FILL, sizeof room);
    begin_open();
    expect(element_execute(METADATA, sizeof METADATA, now.store, STORE, &now.session, room, sizeof room) == 0 && unchanged(),
        "outcome 0 for metadata with a room of 70,000");
    expect(memcmp(room, METADATA_ANSWER, METADATA_SIZE) == 0, "the metadata with a room of 70,000");
    size_t at = METADATA_SIZE;
    while (at < sizeof room && room[at] == FILL)
        at++;
    expect(at == sizeof room, "byte %zu of a room of 70,000 untouched", at);
}

/* Reads of F1D0 with the three bytes 0A 0B 0C in use: what is there from the offset on, at most the length. */

typedef struct reading {
    unsigned offset, length;
    uint8_t answer[8]; /* by hand */
    size_t size;       /* 4 and OutLen; 0 for refusal 08 */
} reading;

static const reading READINGS[] = {
    {0, 0, {0, 0, 0, 0}, 4},
    {0, 1, {0, 0, 0, 1, 0x0A}, 5},
    {0, 2, {0, 0, 0, 2, 0x0A, 0x0B}, 6},
    {0, 3, {0, 0, 0, 3, 0x0A, 0x0B, 0x0C}, 7},
    {0, 4, {0, 0, 0, 3, 0x0A, 0x0B, 0x0C}, 7},
    {0, 140, {0, 0, 0, 3, 0x0A, 0x0B, 0x0C}, 7},
    {0, 141, {0, 0, 0, 3, 0x0A, 0x0B, 0x0C}, 7},
    {0, ELEMENT_WHOLE, {0, 0, 0, 3, 0x0A, 0x0B, 0x0C}, 7},
    {1, ELEMENT_WHOLE, {0, 0, 0, 2, 0x0B, 0x0C}, 6},
    {2, 0, {0, 0, 0, 0}, 4},
    {2, 1, {0, 0, 0, 1, 0x0C}, 5},
    {2, 2, {0, 0, 0, 1, 0x0C}, 5},
    {2, 0xFFFD, {0, 0, 0, 1, 0x0C}, 5},
    {2, 0xFFFE, {0, 0, 0, 1, 0x0C}, 5}, /* the sum is 65,536 */
    {2, ELEMENT_WHOLE, {0, 0, 0, 1, 0x0C}, 5},
    {3, 0, {0, 0, 0, 0}, 4},
    {3, 1, {0, 0, 0, 0}, 4},
    {3, ELEMENT_WHOLE, {0, 0, 0, 0}, 4},
    {4, 0, {0}, 0},
    {4, 1, {0}, 0},
    {4, ELEMENT_WHOLE, {0}, 0},
    {140, 0, {0}, 0},
    {0xFFFF, 0, {0}, 0},
    {0xFFFF, 1, {0}, 0},
    {0xFFFF, ELEMENT_WHOLE, {0}, 0}
};

static void begin_three(void)
{
    static const uint8_t three[] = {0x02, 0x00, 0x00, 0x07, 0xF1, 0xD0, 0x00, 0x00, 0x0A, 0x0B, 0x0C};
    begin_open();
    expect(execute(three, sizeof three, ROOM) == 0 && now.room[0] == 0, "three bytes written");
    memset(now.room, FILL, ROOM);
    was = now;
}

static uint8_t read_in(unsigned object, unsigned offset, unsigned length, size_t room)
{
    const uint8_t command[] = {
        ELEMENT_GET, ELEMENT_DATA, 0x00, 0x06, (uint8_t)(object >> 8), (uint8_t)object, (uint8_t)(offset >> 8), (uint8_t)offset,
        (uint8_t)(length >> 8), (uint8_t)length
    };
    return execute(command, sizeof command, room);
}

/* In each room from 4 bytes on: 08 in all of them, or 0D up to the answer's own size and the answer from there on, the bytes behind it untouched. */
static void check_reading(const reading *r)
{
    for (size_t room = ELEMENT_LEAST_ROOM; room <= 12; room++) {
        begin_three();
        expect(read_in(0xF1D0, r->offset, r->length, room) == 0, "outcome 0 for %u bytes at %u in a room of %zu", r->length, r->offset, room);
        if (r->size == 0)
            expect(refused(0x08), "refusal 08 for %u bytes at %u in a room of %zu", r->length, r->offset, room);
        else if (room < r->size)
            expect(refused(0x0D), "refusal 0D for %u bytes at %u in a room of %zu", r->length, r->offset, room);
        else
            expect(left(r->answer, r->size, 1, OLD_ERROR), "%zu bytes for %u at %u in a room of %zu, and nothing behind them",
                r->size - ELEMENT_HEADER, r->length, r->offset, room);
    }
    begin_three();
    expect(read_in(0xF1D0, r->offset, r->length, 3) == 1 && unchanged(), "outcome 1 for %u bytes at %u in a room of 3", r->length, r->offset);
}

static void check_short_reads(void)
{
    for (size_t i = 0; i < sizeof READINGS / sizeof READINGS[0]; i++)
        check_reading(&READINGS[i]);

    begin_open();
    expect(read_in(0xF1D1, 0, ELEMENT_WHOLE, 4) == 0 && left(DONE, sizeof DONE, 1, OLD_ERROR), "no data of an empty object in a room of 4");
    begin_open();
    expect(read_in(0xF1D1, 1, 0, 4) == 0 && refused(0x08), "refusal 08 at offset 1 of an empty object");
    begin_open();
    now.store[40 + 1] = was.store[40 + 1] = ELEMENT_NEVER;
    expect(read_in(0xF1D0, 1, ELEMENT_WHOLE, 4) == 0 && refused(0x07), "refusal 07 for the read expression before 08 for the offset");
}

/* The largest answer, by a length past it: it fills the largest room, and does not fit one of a byte less. */
static void check_largest_read(void)
{
    static const uint8_t get[] = {ELEMENT_GET, ELEMENT_DATA, 0x00, 0x06, 0xF1, 0xE0, 0x00, 0x00, ELEMENT_WHOLE >> 8, ELEMENT_WHOLE & 0xFF};
    static uint8_t room[ELEMENT_LARGEST_ROOM + 1];
    const size_t record = 2832;
    begin_open();
    now.store[record + 8] = (uint8_t)ELEMENT_LARGEST_OBJECT;
    now.store[record + 9] = ELEMENT_LARGEST_OBJECT >> 8;
    memset(now.store + record + ELEMENT_RECORD_HEAD, 0xC3, ELEMENT_LARGEST_OBJECT);
    was = now;
    memset(room, FILL, sizeof room);
    expect(element_execute(get, sizeof get, now.store, STORE, &now.session, room, ELEMENT_LARGEST_ROOM) == 0 && unchanged(),
        "outcome 0 for all of F1E0 in a room of 1,504");
    expect(room[0] == 0 && room[1] == 0 && room[2] == 0x05 && room[3] == 0xDC, "OutLen 1,500 for all of F1E0");
    for (size_t i = ELEMENT_HEADER; i < ELEMENT_LARGEST_ROOM; i++)
        expect(room[i] == 0xC3, "byte %zu of all of F1E0", i);
    expect(room[ELEMENT_LARGEST_ROOM] == FILL, "the byte behind all of F1E0 untouched");
    memset(room, FILL, sizeof room);
    expect(element_execute(get, sizeof get, now.store, STORE, &now.session, room, ELEMENT_LARGEST_ROOM - 1) == 0 && memcmp(room, REFUSED, 4) == 0
            && now.session.error == 0x0D,
        "refusal 0D for all of F1E0 in a room of 1,503");
    for (size_t i = ELEMENT_HEADER; i < sizeof room; i++)
        expect(room[i] == FILL, "byte %zu of the room untouched by refusal 0D", i);
}

/* The session's objects: a byte at offset 0, nothing at 1, 08 from 2 on. The last error is cleared only where its byte is answered. */
static void check_session_reads(void)
{
    static const unsigned objects[] = {ELEMENT_LCSG, ELEMENT_LCSA, ELEMENT_LAST_ERROR};
    static const uint8_t bytes[] = {0x03, 0x07, 0x0A};
    static const uint8_t errors[] = {0x0A, 0x0A, 0x00}; /* after the byte is answered */
    static const unsigned lengths[] = {0, 1, 2, 9, ELEMENT_WHOLE};
    for (size_t i = 0; i < 3; i++)
        for (size_t j = 0; j < sizeof lengths / sizeof lengths[0]; j++) {
            const uint8_t answer[] = {0x00, 0x00, 0x00, 0x01, bytes[i]};
            begin(1, 0x03, 0x07, 0x0A);
            expect(read_in(objects[i], 0, lengths[j], 5) == 0, "outcome 0 for %u at 0 of %04X", lengths[j], objects[i]);
            if (lengths[j] == 0)
                expect(left(DONE, sizeof DONE, 1, 0x0A), "no data for 0 at 0 of %04X", objects[i]);
            else
                expect(left(answer, sizeof answer, 1, errors[i]), "the byte of %04X for %u at 0", objects[i], lengths[j]);
            begin(1, 0x03, 0x07, 0x0A);
            expect(read_in(objects[i], 0, lengths[j], 4) == 0 && (lengths[j] == 0 ? left(DONE, sizeof DONE, 1, 0x0A) : refused(0x0D)),
                "no byte of %04X for %u at 0 in a room of 4", objects[i], lengths[j]);
            begin(1, 0x03, 0x07, 0x0A);
            expect(read_in(objects[i], 1, lengths[j], 4) == 0 && left(DONE, sizeof DONE, 1, 0x0A), "no data for %u at 1 of %04X", lengths[j], objects[i]);
            begin(1, 0x03, 0x07, 0x0A);
            expect(read_in(objects[i], 2, lengths[j], ROOM) == 0 && refused(0x0A), "refusal 08 for %u at 2 of %04X", lengths[j], objects[i]);
            begin(1, 0x03, 0x07, 0x00);
            expect(read_in(objects[i], 0xFFFF, lengths[j], ROOM) == 0 && refused(0x08), "refusal 08 for %u at FFFF of %04X", lengths[j], objects[i]);
        }
}

/* Every value of session.opened: 0 is closed, any other is open. */

static void check_opened_kept(uint8_t opened)
{
    begin(opened, 1, 1, OLD_ERROR);
    expect(execute(METADATA, sizeof METADATA, ROOM) == 0, "outcome 0 for metadata with opened %u", opened);
    if (opened == 0)
        expect(refused(0x0C), "refusal 0C for metadata while closed");
    else
        expect(left(METADATA_ANSWER, METADATA_SIZE, opened, OLD_ERROR), "the metadata and the same byte with opened %u", opened);

    begin(opened, 1, 1, 0);
    expect(execute(NO_OBJECT, sizeof NO_OBJECT, ROOM) == 0, "outcome 0 for no such object with opened %u", opened);
    expect(refused(opened == 0 ? 0x0C : 0x01), "refusal %s and the same byte with opened %u", opened == 0 ? "0C" : "01", opened);

    begin(opened, 1, 1, OLD_ERROR);
    expect(execute(OPEN_OTHER, sizeof OPEN_OTHER, ROOM) == 0 && refused(0x05),
        "refusal 05 for another identifier and the same byte with opened %u", opened);

    begin(opened, 1, 1, OLD_ERROR);
    expect(execute(NULL, 0, ROOM) == 0 && refused(0x04), "refusal 04 for an empty command and the same byte with opened %u", opened);

    begin(opened, 1, 1, OLD_ERROR);
    expect(execute(WRITE, sizeof WRITE, ROOM) == 0 && now.session.opened == opened, "the same byte after a write with opened %u", opened);
}

static void check_opened_changed(uint8_t opened)
{
    begin(opened, 1, 1, OLD_ERROR);
    expect(execute(OPEN, sizeof OPEN, ROOM) == 0, "outcome 0 for open with opened %u", opened);
    expect(left(DONE, sizeof DONE, opened == 0 ? 1 : opened, OLD_ERROR), "opened %u after open from %u", opened == 0 ? 1 : opened, opened);

    begin(opened, 1, 1, OLD_ERROR);
    expect(execute(CLOSE, sizeof CLOSE, ROOM) == 0, "outcome 0 for close with opened %u", opened);
    if (opened == 0)
        expect(refused(0x0C), "refusal 0C for close while closed");
    else
        expect(left(DONE, sizeof DONE, 0, OLD_ERROR), "opened 0 after close from %u", opened);
}

/* A list writes the byte only if the application ends in another state than it began in. */
static void check_opened_by_list(uint8_t opened)
{
    static const size_t sizes[] = {sizeof CLOSE, sizeof OPEN, sizeof CLOSE};
    static const size_t spaces[] = {0, 4, 4};
    uint8_t list[2 * sizeof CLOSE + sizeof OPEN];
    memcpy(list, CLOSE, sizeof CLOSE);
    memcpy(list + sizeof CLOSE, OPEN, sizeof OPEN);
    memcpy(list + sizeof CLOSE + sizeof OPEN, CLOSE, sizeof CLOSE);

    /* close and open, each with room */
    begin(opened, 1, 1, OLD_ERROR);
    expect(element_run(list, sizeof list, sizes, 3, now.store, STORE, &now.session, now.room, ROOM, spaces + 1, 2, now.outcomes, 1) == 0,
        "outcome 0 for a list of close with opened %u", opened);
    expect(now.session.opened == 0, "opened 0 after a list of close from %u", opened);

    begin(opened, 1, 1, OLD_ERROR);
    expect(element_run(list, sizeof list, sizes, 3, now.store, STORE, &now.session, now.room, ROOM, spaces + 1, 2, now.outcomes, 2) == 0,
        "outcome 0 for a list of close, open with opened %u", opened);
    expect(now.session.opened == (opened == 0 ? 1 : opened),
        "opened %u after a list of close, open from %u", opened == 0 ? 1 : opened, opened);
    expect(now.session.error == (opened == 0 ? 0x0C : OLD_ERROR),
        "the last error %s after a list of close, open from %u", opened == 0 ? "0C" : "02", opened);

    /* the first close has no room, so the application opens and closes */
    begin(opened, 1, 1, OLD_ERROR);
    expect(element_run(list, sizeof list, sizes, 3, now.store, STORE, &now.session, now.room, ROOM, spaces, 3, now.outcomes, 3) == 0,
        "outcome 0 for a list of three with opened %u", opened);
    memcpy(was.room, DONE, 4);
    memcpy(was.room + 4, DONE, 4);
    memcpy(was.outcomes, "\1\0\0", 3);
    put_was_session(0, OLD_ERROR);
    expect(unchanged(), "outcomes 1 0 0 and opened 0 after a list of open, close from %u", opened);
}

static void check_opened(void)
{
    for (unsigned opened = 0; opened < 256; opened++) {
        check_opened_kept((uint8_t)opened);
        check_opened_changed((uint8_t)opened);
        check_opened_by_list((uint8_t)opened);
    }
}

/* Session bytes that are no state, and every last error. */

static void check_states(void)
{
    for (unsigned byte = 0; byte < 256; byte++) {
        begin(1, (uint8_t)byte, 1, OLD_ERROR);
        expect(execute(METADATA, sizeof METADATA, ROOM) == 0, "outcome 0 with LcsG %02X", byte);
        if (is_state(byte))
            expect(left(METADATA_ANSWER, METADATA_SIZE, 1, OLD_ERROR), "the metadata with LcsG %02X", byte);
        else
            expect(refused(0x06), "refusal 06 with LcsG %02X", byte);

        begin(1, 1, (uint8_t)byte, OLD_ERROR);
        expect(execute(METADATA, sizeof METADATA, ROOM) == 0, "outcome 0 with LcsA %02X", byte);
        if (!is_state(byte))
            expect(refused(0x06), "refusal 06 with LcsA %02X", byte);
        else if (byte == 0x0F)
            expect(refused(0x0C), "refusal 0C with LcsA 0F");
        else
            expect(left(METADATA_ANSWER, METADATA_SIZE, 1, OLD_ERROR), "the metadata with LcsA %02X", byte);

        begin(0, (uint8_t)byte, (uint8_t)byte, 0xFF);
        expect(execute(OPEN, sizeof OPEN, ROOM) == 0, "outcome 0 for open with LcsG and LcsA %02X", byte);
        if (is_state(byte) && byte != 0x0F)
            expect(left(DONE, sizeof DONE, 1, 0xFF), "opened with LcsG and LcsA %02X", byte);
        else
            expect(refused(0xFF), "not opened with LcsG and LcsA %02X", byte);
    }
}

static void check_errors(void)
{
    for (unsigned byte = 0; byte < 256; byte++) {
        uint8_t error = (uint8_t)byte;
        begin(1, 1, 1, error);
        expect(execute(WRITE_PAST, sizeof WRITE_PAST, ROOM) == 0 && refused(larger(error, 0x08)),
            "the larger of 08 and the last error %02X after a refusal", byte);

        begin(1, 1, 1, error);
        expect(execute(FLUSHED_NO_OBJECT, sizeof FLUSHED_NO_OBJECT, ROOM) == 0 && refused(0x01),
            "the last error 01 after a flush of %02X", byte);

        begin(1, 1, 1, error);
        const uint8_t read[] = {0x00, 0x00, 0x00, 0x01, error};
        expect(execute(READ_ERROR, sizeof READ_ERROR, ROOM) == 0 && left(read, sizeof read, 1, 0),
            "the last error %02X read and cleared", byte);
    }
}

/* Factory buffers and stores of other sizes. */

static void check_factory(void)
{
    static const size_t wrong[] = {STORE - 1, STORE + 1, 0, 1, ELEMENT_LARGEST_STORE};
    static uint8_t buffer[ELEMENT_LARGEST_STORE];
    static uint8_t filled[ELEMENT_LARGEST_STORE];
    memset(buffer, FILL, sizeof buffer);
    memset(filled, FILL, sizeof filled);
    for (size_t i = 0; i < sizeof wrong / sizeof wrong[0]; i++) {
        expect(element_make_factory_store(buffer, wrong[i]) == 2, "outcome 2 for a factory store of %zu bytes", wrong[i]);
        expect(memcmp(buffer, filled, sizeof buffer) == 0, "a factory buffer of %zu bytes untouched", wrong[i]);
    }
    expect(element_make_factory_store(buffer, STORE) == 0, "outcome 0 for a factory store of 6,024 bytes");
    expect(element_check_store(buffer, STORE), "the factory store well formed");
    expect(memcmp(buffer + STORE, filled + STORE, sizeof buffer - STORE) == 0, "bytes behind the factory store untouched");
    static const uint8_t front[] = {0xEC, 0x00, 0x01, 0x00, 0xD0, 0xF1, 0x8C, 0x00, 0x00, 0x00, 0x01, 0x00, 0x03, 0xE1, 0xFC, 0x07};
    expect(memcmp(buffer, front, sizeof front) == 0, "the record of F1D0 at the front of the factory store");
}

/* A store cut behind a record is a store of fewer objects: twelve records of 236 bytes, then two of 1,596. */
static bool is_record_end(size_t length)
{
    return (length > 0 && length <= 2832 && length % 236 == 0) || length == 4428 || length == 6024;
}

static void check_cut_stores(void)
{
    for (size_t length = 0; length <= STORE; length++) {
        begin_open();
        expect(element_check_store(now.store, length) == is_record_end(length),
            "a store cut to %zu bytes %s", length, is_record_end(length) ? "well formed" : "malformed");
        expect(element_execute(METADATA, sizeof METADATA, now.store, length, &now.session, now.room, ROOM) == 0,
            "outcome 0 for a store cut to %zu bytes", length);
        if (is_record_end(length))
            expect(left(METADATA_ANSWER, METADATA_SIZE, 1, OLD_ERROR), "the metadata from a store cut to %zu bytes", length);
        else
            expect(refused(0x06), "refusal 06 for a store cut to %zu bytes", length);
    }
    begin_open();
    expect(!element_check_store(now.store, STORE + 1), "a store of a byte too many malformed");
    expect(element_execute(WRITE, sizeof WRITE, now.store, STORE + 1, &now.session, now.room, ROOM) == 0 && refused(0x06),
        "refusal 06 for a store of a byte too many");
}

/*
 * Zeros are due behind each expression of a slot and past used. One byte that is not zero there, and two equal ones, which cancel out in a sum by
 * exclusive or, make the store malformed.
 */
static void check_zeros(void)
{
    static const struct { size_t at, length; } zeros[] = {{16, 24}, {42, 26}, {70, 26}, {96, 140}}; /* of F1D0: three slots, data */
    for (size_t i = 0; i < sizeof zeros / sizeof zeros[0]; i++)
        for (size_t first = zeros[i].at; first < zeros[i].at + zeros[i].length; first++)
            for (size_t second = first; second < zeros[i].at + zeros[i].length; second += 7) {
                begin_open();
                now.store[first] = now.store[second] = 0x5A;
                expect(!element_check_store(now.store, STORE), "a store with 5A at %zu and %zu malformed", first, second);
                was = now;
                expect(execute(METADATA, sizeof METADATA, ROOM) == 0 && refused(0x06), "refusal 06 for a store with 5A at %zu and %zu", first, second);
            }
}

/* Commands above 1,557 bytes, and stores above 16,384 bytes or 32 records. */

static void check_long_commands(void)
{
    static uint8_t command[4 + 65536];
    static const struct { size_t length; uint8_t high, low, number; } longs[] = {
        {1557, 0x06, 0x11, 0x08}, /* a write of 1,549 bytes */
        {1558, 0x06, 0x12, 0x04},
        {4096, 0x0F, 0xFC, 0x04},
        {65539, 0xFF, 0xFF, 0x04},
        {65540, 0x00, 0x00, 0x04} /* InLen is the count in 16 bits only */
    };
    command[0] = 0x02;
    command[4] = 0xF1;
    command[5] = 0xD0;
    for (size_t i = 0; i < sizeof longs / sizeof longs[0]; i++) {
        command[2] = longs[i].high;
        command[3] = longs[i].low;
        begin_open();
        expect(execute(command, longs[i].length, ROOM) == 0 && refused(longs[i].number),
            "refusal %02X for a command of %zu bytes", longs[i].number, longs[i].length);
    }
}

static uint8_t large_store[20000];

/* Records of the objects 1, 2, .. with empty data, always granted; returns their size. */
static size_t make_records(size_t count, size_t maximum)
{
    size_t length = 96 + maximum;
    memset(large_store, 0, sizeof large_store);
    for (size_t i = 0; i < count; i++) {
        uint8_t *record = large_store + i * length;
        record[0] = (uint8_t)length;
        record[1] = (uint8_t)(length >> 8);
        record[2] = 0x01;
        record[4] = (uint8_t)(i + 1);
        record[6] = (uint8_t)maximum;
        record[7] = (uint8_t)(maximum >> 8);
        record[10] = 0x01;
        record[12] = record[40] = record[68] = 1;
    }
    return count * length;
}

static void check_large_stores(void)
{
    static const struct { size_t count, maximum; bool formed; } stores[] = {
        {32, 416, true},  /* 16,384 bytes */
        {31, 433, false}, /* 16,399 bytes */
        {ELEMENT_MOST_RECORDS, 1, true},
        {ELEMENT_MOST_RECORDS + 1, 1, false},
        {1, 1500, true},
        {1, 1501, false},
        {1, 0, false}
    };
    static const uint8_t get[] = {0x01, 0x00, 0x00, 0x06, 0x00, 0x01, 0x00, 0x00, 0x00, 0x00};
    for (size_t i = 0; i < sizeof stores / sizeof stores[0]; i++) {
        size_t length = make_records(stores[i].count, stores[i].maximum);
        begin_open();
        expect(element_check_store(large_store, length) == stores[i].formed,
            "a store of %zu bytes %s", length, stores[i].formed ? "well formed" : "malformed");
        expect(element_execute(get, sizeof get, large_store, length, &now.session, now.room, ROOM) == 0,
            "outcome 0 on a store of %zu bytes", length);
        if (stores[i].formed)
            expect(left(DONE, sizeof DONE, 1, OLD_ERROR), "no data from a store of %zu bytes", length);
        else
            expect(refused(0x06), "refusal 06 on a store of %zu bytes", length);
    }
}

/* Counters: F1D0 up, F1D1 down, and F1D2 of the same size, no counter; each always granted. */

enum {
    COUNTER_RECORD = ELEMENT_RECORD_HEAD + ELEMENT_COUNTER_SIZE,
    UP = 0xF1D0,
    DOWN = 0xF1D1,
    PLAIN = 0xF1D2
};

static uint8_t counters[3 * COUNTER_RECORD];
static uint8_t counters_due[sizeof counters];

static void put_four(uint8_t *at, uint32_t number)
{
    for (size_t i = 0; i < 4; i++)
        at[i] = (uint8_t)(number >> (24 - 8 * i));
}

static void put_counter(uint8_t *record, unsigned kind, unsigned object, uint32_t value, uint32_t threshold)
{
    memset(record, 0, COUNTER_RECORD);
    record[0] = COUNTER_RECORD;
    record[2] = (uint8_t)kind;
    record[4] = (uint8_t)object;
    record[5] = (uint8_t)(object >> 8);
    record[6] = record[8] = ELEMENT_COUNTER_SIZE;
    record[10] = ELEMENT_CREATION;
    record[12] = record[40] = record[68] = 1;
    put_four(record + ELEMENT_RECORD_HEAD, value);
    put_four(record + ELEMENT_RECORD_HEAD + 4, threshold);
}

/* Each of the three has this value and this threshold; what is due is the same. */
static void begin_counters(uint32_t value, uint32_t threshold)
{
    begin_open();
    put_counter(counters, ELEMENT_KIND_COUNTER_UP, UP, value, threshold);
    put_counter(counters + COUNTER_RECORD, ELEMENT_KIND_COUNTER_DOWN, DOWN, value, threshold);
    put_counter(counters + 2 * COUNTER_RECORD, ELEMENT_KIND_DATA, PLAIN, value, threshold);
    memcpy(counters_due, counters, sizeof counters);
}

/* Whether the command is done (number 0), or refused with the number, and leaves the store that is due. */
static bool on_counters(const uint8_t *command, size_t length, uint8_t number)
{
    bool answered = element_execute(command, length, counters, sizeof counters, &now.session, now.room, ROOM) == 0;
    bool response = number == 0 ? left(DONE, sizeof DONE, 1, OLD_ERROR) : refused(larger(number, OLD_ERROR));
    return answered && response && memcmp(counters, counters_due, sizeof counters) == 0;
}

static bool counts(unsigned object, unsigned offset, uint8_t step, uint8_t number)
{
    const uint8_t command[] = {
        ELEMENT_SET, ELEMENT_COUNT, 0x00, 0x05, (uint8_t)(object >> 8), (uint8_t)object, (uint8_t)(offset >> 8), (uint8_t)offset, step
    };
    return on_counters(command, sizeof command, number);
}

static void check_counts(void)
{
    static const struct { unsigned object; uint32_t value, threshold; uint8_t step, number; uint32_t after; } cases[] = {
        {UP, 12, 300, 5, 0x00, 17},
        {UP, 12, 300, 0, 0x00, 12},
        {UP, 299, 300, 1, 0x00, 300},
        {UP, 298, 300, 255, 0x00, 300},
        {UP, 255, 300, 1, 0x00, 256},
        {UP, 0xFFFFFFFE, 0xFFFFFFFF, 255, 0x00, 0xFFFFFFFF},
        {UP, 300, 300, 1, 0x08, 300},
        {UP, 300, 300, 0, 0x08, 300},
        {UP, 301, 300, 1, 0x08, 301},
        {UP, 0xFFFFFFFF, 0xFFFFFFFF, 1, 0x08, 0xFFFFFFFF},
        {UP, 0, 0, 1, 0x08, 0},
        {DOWN, 10, 2, 5, 0x00, 5},
        {DOWN, 10, 2, 0, 0x00, 10},
        {DOWN, 10, 2, 8, 0x00, 2},
        {DOWN, 10, 2, 255, 0x00, 2},
        {DOWN, 256, 0, 1, 0x00, 255},
        {DOWN, 1, 0, 255, 0x00, 0},
        {DOWN, 2, 2, 1, 0x08, 2},
        {DOWN, 2, 2, 0, 0x08, 2},
        {DOWN, 1, 2, 1, 0x08, 1},
        {DOWN, 0, 0, 1, 0x08, 0},
        {DOWN, 0, 0xFFFFFFFF, 255, 0x08, 0},
        {PLAIN, 12, 300, 5, 0x03, 12}
    };
    for (size_t i = 0; i < sizeof cases / sizeof cases[0]; i++) {
        begin_counters(cases[i].value, cases[i].threshold);
        put_four(counters_due + (cases[i].object - UP) * COUNTER_RECORD + ELEMENT_RECORD_HEAD, cases[i].after);
        expect(counts(cases[i].object, 0, cases[i].step, cases[i].number), "case %zu of the counts: number %02X", i, cases[i].number);
    }
}

static void check_refused_counts(void)
{
    static const uint8_t no_step[] = {ELEMENT_SET, ELEMENT_COUNT, 0x00, 0x04, 0xF1, 0xD0, 0x00, 0x00};
    static const uint8_t two_steps[] = {ELEMENT_SET, ELEMENT_COUNT, 0x00, 0x06, 0xF1, 0xD0, 0x00, 0x00, 0x01, 0x01};
    static const uint8_t of_get[] = {ELEMENT_GET, ELEMENT_COUNT, 0x00, 0x05, 0xF1, 0xD0, 0x00, 0x00, 0x01};
    begin_counters(5, 9);
    expect(counts(UP, 1, 1, 0x08) && counts(UP, 0xFFFF, 1, 0x08), "refusal 08 for a count at another offset than 0");
    begin_counters(5, 9);
    expect(counts(PLAIN, 1, 1, 0x03), "refusal 03 for no counter before 08 for the offset");
    begin_counters(5, 9);
    expect(counts(ELEMENT_LCSG, 0, 1, 0x03) && counts(ELEMENT_LCSA, 0, 1, 0x03), "refusal 03 for a count of LcsG and LcsA");
    begin_counters(5, 9);
    expect(counts(ELEMENT_LAST_ERROR, 0, 1, 0x07), "refusal 07 for a count of the last error");
    begin_counters(5, 9);
    expect(counts(0xF1D3, 0, 1, 0x01), "refusal 01 for a count of no object");
    begin_counters(5, 9);
    expect(on_counters(no_step, sizeof no_step, 0x04) && on_counters(two_steps, sizeof two_steps, 0x04),
        "refusal 04 for a count of no step and of two");
    begin_counters(5, 9);
    expect(on_counters(of_get, sizeof of_get, 0x03), "refusal 03 for a get with the Param of a count");
    begin_counters(9, 9);
    counters[12 + 1] = counters_due[12 + 1] = ELEMENT_NEVER;
    expect(counts(UP, 0, 1, 0x07), "refusal 07 for the change expression before 08 for the threshold");
    begin_counters(9, 9);
    counters[2 * COUNTER_RECORD + 13] = counters_due[2 * COUNTER_RECORD + 13] = ELEMENT_NEVER;
    expect(counts(PLAIN, 0, 1, 0x07), "refusal 07 for the change expression before 03 for no counter");
}

/* A counter is read as other data is: value and threshold at most, none at 8, 08 from 9 on. */
static void check_counter_reads(void)
{
    static const uint8_t whole[] = {0x00, 0x00, 0x00, 0x08, 0x00, 0x00, 0x00, 0x05, 0x00, 0x00, 0x00, 0x09};
    static const uint8_t last[] = {0x00, 0x00, 0x00, 0x01, 0x09};
    static const struct { uint8_t offset; const uint8_t *answer; size_t size; } cases[] = {
        {0, whole, sizeof whole}, {7, last, sizeof last}, {8, DONE, sizeof DONE}, {9, NULL, 0}
    };
    for (size_t i = 0; i < sizeof cases / sizeof cases[0]; i++) {
        const uint8_t get[] = {ELEMENT_GET, ELEMENT_DATA, 0x00, 0x06, 0xF1, 0xD0, 0x00, cases[i].offset, 0x00, 0x09};
        begin_counters(5, 9);
        expect(element_execute(get, sizeof get, counters, sizeof counters, &now.session, now.room, ROOM) == 0
                && (cases[i].answer == NULL ? refused(0x08) : left(cases[i].answer, cases[i].size, 1, OLD_ERROR)),
            "what a counter answers to 9 bytes at %u", cases[i].offset);
    }
}

/* A write sets all 8 bytes, whatever they are. */
static void check_counter_writes(void)
{
    static const uint8_t params[] = {ELEMENT_DATA, ELEMENT_ERASE_AND_WRITE};
    uint8_t command[ELEMENT_HEADER + 4 + ELEMENT_COUNTER_SIZE + 1] = {ELEMENT_SET, 0, 0, 0, 0xF1, 0xD0};
    memset(command + 8, 0xC3, sizeof command - 8);
    for (size_t i = 0; i < sizeof params; i++)
        for (uint8_t offset = 0; offset <= ELEMENT_COUNTER_SIZE; offset++)
            for (uint8_t size = 1; size <= ELEMENT_COUNTER_SIZE + 1; size++) {
                bool whole = offset == 0 && size == ELEMENT_COUNTER_SIZE;
                begin_counters(5, 9);
                command[1] = params[i];
                command[3] = (uint8_t)(4 + size);
                command[7] = offset;
                if (whole)
                    memset(counters_due + ELEMENT_RECORD_HEAD, 0xC3, ELEMENT_COUNTER_SIZE);
                expect(on_counters(command, (size_t)(8 + size), whole ? 0x00 : 0x08),
                    "%s for a write of %u bytes at %u of a counter", whole ? "done" : "refusal 08", size, offset);
            }
}

/* Of kind 03 these eight bytes are no queue. */
static void check_kinds(void)
{
    for (unsigned kind = 0; kind < 256; kind++) {
        bool known = kind == 0x01 || kind == 0x02 || kind == 0x04;
        begin_counters(5, 9);
        counters[2] = (uint8_t)kind;
        expect(element_check_store(counters, sizeof counters) == known,
            "a record of kind %02X %s", kind, known ? "well formed" : "malformed");
        counters[2] = ELEMENT_KIND_DATA;
        counters[3] = (uint8_t)kind;
        expect(element_check_store(counters, sizeof counters) == (kind == 0),
            "a record of kind %02X01 %s", kind, kind == 0 ? "well formed" : "malformed");
    }
    for (uint8_t kind = ELEMENT_KIND_DATA; kind <= ELEMENT_KIND_COUNTER_DOWN; kind = (uint8_t)(2 * kind))
        for (uint8_t maximum = 7; maximum <= 9; maximum++)
            for (uint8_t used = 7; used <= maximum; used++) {
                uint8_t record[COUNTER_RECORD + 1] = {0};
                bool formed = kind == ELEMENT_KIND_DATA || (maximum == 8 && used == 8);
                put_counter(record, kind, UP, 0, 0);
                record[0] = (uint8_t)(ELEMENT_RECORD_HEAD + maximum);
                record[6] = maximum;
                record[8] = used;
                expect(element_check_store(record, (size_t)(ELEMENT_RECORD_HEAD + maximum)) == formed,
                    "kind %u with maximum %u and used %u %s", kind, maximum, used, formed ? "well formed" : "malformed");
            }
}

/* Queues: F1D0 with the fares 5 (A1) and 6 (B1 B2) in 64 bytes, and F1D1 of 8 bytes of data; each always granted. */

enum {
    QUEUE_MAXIMUM = 64,
    QUEUE_RECORD = ELEMENT_RECORD_HEAD + QUEUE_MAXIMUM,
    QUEUE = 0xF1D0,
    NO_QUEUE = 0xF1D1,
    FRONT = ELEMENT_HEADER + 2, /* of an append and an acknowledge: header and object */
    LONGEST_BODY = ELEMENT_LARGEST_COMMAND - FRONT
};

static const uint8_t TWO_FARES[] = {
    0x07, 0x00, 0x00, 0x00,
    0x09, 0x00, 0x01, 0x00, 0x05, 0x00, 0x00, 0x00, 0xA1,
    0x0A, 0x00, 0x01, 0x00, 0x06, 0x00, 0x00, 0x00, 0xB1, 0xB2
};
static uint8_t queues[QUEUE_RECORD + COUNTER_RECORD];
static uint8_t queues_due[sizeof queues];

/* What stands in a record of a queue: its head and this data. */
static void put_queue(uint8_t *record, const uint8_t *data, size_t used)
{
    memset(record, 0, QUEUE_RECORD);
    record[0] = QUEUE_RECORD;
    record[2] = ELEMENT_KIND_QUEUE;
    record[4] = QUEUE & 0xFF;
    record[5] = QUEUE >> 8;
    record[6] = QUEUE_MAXIMUM;
    record[8] = (uint8_t)used;
    record[10] = ELEMENT_CREATION;
    record[12] = record[40] = record[68] = 1;
    memcpy(record + ELEMENT_RECORD_HEAD, data, used);
}

/* What is due is the same. */
static void begin_queue(const uint8_t *data, size_t used)
{
    begin_open();
    put_queue(queues, data, used);
    put_counter(queues + QUEUE_RECORD, ELEMENT_KIND_DATA, NO_QUEUE, 1, 2);
    memcpy(queues_due, queues, sizeof queues);
}

static void begin_fares(void)
{
    begin_queue(TWO_FARES, sizeof TWO_FARES);
}

/* Whether the command is done (number 0), or refused with the number, and leaves the store that is due. */
static bool on_queues(const uint8_t *command, size_t length, uint8_t number)
{
    bool answered = element_execute(command, length, queues, sizeof queues, &now.session, now.room, ROOM) == 0;
    bool response = number == 0 ? left(DONE, sizeof DONE, 1, OLD_ERROR) : refused(larger(number, OLD_ERROR));
    return answered && response && memcmp(queues, queues_due, sizeof queues) == 0;
}

/* A set of so many bytes C3 behind the object. */
static bool sets(uint8_t param, unsigned object, size_t size, uint8_t number)
{
    static uint8_t command[FRONT + LONGEST_BODY + 1];
    memset(command, 0xC3, sizeof command);
    command[0] = ELEMENT_SET;
    command[1] = param;
    command[2] = (uint8_t)((2 + size) >> 8);
    command[3] = (uint8_t)(2 + size);
    command[4] = (uint8_t)(object >> 8);
    command[5] = (uint8_t)object;
    return on_queues(command, FRONT + size, number);
}

static bool appends(unsigned object, size_t size, uint8_t number)
{
    return sets(ELEMENT_APPEND, object, size, number);
}

static bool acknowledges(unsigned object, uint32_t fare, uint8_t number)
{
    uint8_t command[FRONT + 4] = {ELEMENT_SET, ELEMENT_ACKNOWLEDGE, 0x00, 0x06, (uint8_t)(object >> 8), (uint8_t)object};
    put_four(command + FRONT, fare);
    return on_queues(command, sizeof command, number);
}

/* A body of each size that a command can have: 41 bytes are left, 8 of them for the head of the fare. */
static void check_appends(void)
{
    static const uint8_t head[] = {0x00, 0x00, 0x01, 0x00, 0x07, 0x00, 0x00, 0x00};
    for (size_t size = 0; size <= LONGEST_BODY + 1; size++) {
        uint8_t *fare = queues_due + ELEMENT_RECORD_HEAD + sizeof TWO_FARES;
        bool fits = size >= 1 && size <= 33;
        begin_fares();
        if (fits) {
            queues_due[8] = (uint8_t)(sizeof TWO_FARES + ELEMENT_FARE_HEAD + size);
            queues_due[ELEMENT_RECORD_HEAD] = 0x08;
            memcpy(fare, head, sizeof head);
            fare[0] = (uint8_t)(ELEMENT_FARE_HEAD + size);
            memset(fare + ELEMENT_FARE_HEAD, 0xC3, size);
        }
        uint8_t number = fits ? 0x00 : size == 0 || size > ELEMENT_LARGEST_BODY ? 0x04 : 0x08;
        expect(appends(QUEUE, size, number), "number %02X for an append of %zu bytes", number, size);
    }
}

static void check_acknowledgements(void)
{
    static const uint8_t second[] = {0x07, 0x00, 0x00, 0x00, 0x0A, 0x00, 0x01, 0x00, 0x06, 0x00, 0x00, 0x00, 0xB1, 0xB2};
    static const uint32_t absent[] = {0, 4, 7, 8, 0x05000000, 0x0105, ELEMENT_NO_NUMBER};
    begin_fares();
    put_queue(queues_due, second, sizeof second);
    expect(acknowledges(QUEUE, 5, 0x00), "the second fare left after an acknowledge of the first");
    expect(acknowledges(QUEUE, 5, 0x05), "refusal 05 for an acknowledge that is repeated");
    begin_fares();
    put_queue(queues_due, TWO_FARES, ELEMENT_QUEUE_HEAD);
    expect(acknowledges(QUEUE, 6, 0x00), "no fare left after an acknowledge of the last, and the next number kept");
    for (size_t i = 0; i < sizeof absent / sizeof absent[0]; i++) {
        begin_fares();
        expect(acknowledges(QUEUE, absent[i], 0x05), "refusal 05 for an acknowledge of %lu", (unsigned long)absent[i]);
    }
}

static void check_number_sizes(void)
{
    for (size_t size = 0; size <= LONGEST_BODY + 1; size++) {
        begin_fares();
        expect(size == 4 || sets(ELEMENT_ACKNOWLEDGE, QUEUE, size, 0x04), "refusal 04 for an acknowledge with a number of %zu bytes", size);
    }
}

/* The last number is FFFFFFFE. A fare that does not fit is 08 before it is 0D. */
static void check_last_number(void)
{
    static const uint8_t last[] = {0xFE, 0xFF, 0xFF, 0xFF};
    static const uint8_t given[] = {0xFF, 0xFF, 0xFF, 0xFF, 0x09, 0x00, 0x01, 0x00, 0xFE, 0xFF, 0xFF, 0xFF, 0xC3};
    begin_queue(last, sizeof last);
    put_queue(queues_due, given, sizeof given);
    expect(appends(QUEUE, 1, 0x00), "the number FFFFFFFE given");
    begin_queue(given, sizeof given);
    expect(appends(QUEUE, 1, 0x0D), "refusal 0D where no number is left");
    begin_queue(given, sizeof given);
    expect(appends(QUEUE, 100, 0x08), "refusal 08 for the maximum before 0D for the number");
    begin_queue(given, sizeof given);
    expect(acknowledges(QUEUE, ELEMENT_NO_NUMBER, 0x05), "refusal 05 for an acknowledge of the next number");
    begin_queue(given, sizeof given);
    put_queue(queues_due, given, ELEMENT_QUEUE_HEAD);
    expect(acknowledges(QUEUE, ELEMENT_NO_NUMBER - 1, 0x00), "the fare FFFFFFFE acknowledged");
    expect(appends(QUEUE, 1, 0x0D), "refusal 0D for an empty queue without a number");
}

static void check_no_queue(void)
{
    static const struct { unsigned object; uint8_t number; } cases[] = {
        {NO_QUEUE, 0x03}, {ELEMENT_LCSG, 0x03}, {ELEMENT_LCSA, 0x03}, {ELEMENT_LAST_ERROR, 0x07}, {0xF1D2, 0x01}
    };
    for (size_t i = 0; i < sizeof cases / sizeof cases[0]; i++) {
        begin_fares();
        expect(appends(cases[i].object, 4, cases[i].number) && acknowledges(cases[i].object, 5, cases[i].number),
            "refusal %02X for an append and an acknowledge of %04X", cases[i].number, cases[i].object);
        begin_fares();
        expect(appends(cases[i].object, 0, 0x04) && appends(cases[i].object, 201, 0x04), "refusal 04 for the body before %02X", cases[i].number);
    }
}

static void check_queue_gets(void)
{
    for (uint8_t param = ELEMENT_APPEND; param <= ELEMENT_ACKNOWLEDGE; param++) {
        const uint8_t get[] = {ELEMENT_GET, param, 0x00, 0x06, 0xF1, 0xD0, 0x00, 0x00, 0x00, 0x05};
        begin_fares();
        expect(on_queues(get, sizeof get, 0x03), "refusal 03 for a get with Param %02X", param);
    }
}

/* The change expression comes before all that an append and an acknowledge may be refused for. */
static void check_queue_access(void)
{
    begin_fares();
    queues[13] = queues_due[13] = ELEMENT_NEVER;
    queues[QUEUE_RECORD + 13] = queues_due[QUEUE_RECORD + 13] = ELEMENT_NEVER;
    expect(appends(QUEUE, 1, 0x07) && appends(QUEUE, 200, 0x07) && appends(NO_QUEUE, 1, 0x07), "refusal 07 before 08 and 03 for an append");
    expect(acknowledges(QUEUE, 5, 0x07) && acknowledges(QUEUE, 9, 0x07) && acknowledges(NO_QUEUE, 5, 0x07),
        "refusal 07 before 05 and 03 for an acknowledge");
}

/* Of a queue a write is 07 though its change expression is always, at each offset and of each size; a count is 03. */
static void check_queue_writes(void)
{
    for (unsigned offset = 0; offset <= QUEUE_MAXIMUM + 1; offset++) {
        uint8_t write[FRONT + 2 + sizeof TWO_FARES] = {ELEMENT_SET, ELEMENT_DATA, 0x00, 4 + sizeof TWO_FARES, 0xF1, 0xD0, 0x00, (uint8_t)offset};
        memcpy(write + FRONT + 2, TWO_FARES, sizeof TWO_FARES);
        begin_fares();
        expect(on_queues(write, sizeof write, 0x07), "refusal 07 for a write at %u of a queue", offset);
        write[1] = ELEMENT_ERASE_AND_WRITE;
        expect(on_queues(write, sizeof write, 0x07), "refusal 07 for an erase and write at %u of a queue", offset);
        write[3] = 5;
        expect(on_queues(write, FRONT + 3, 0x07), "refusal 07 for an erase and write of a byte at %u of a queue", offset);
    }
    static const uint8_t count[] = {ELEMENT_SET, ELEMENT_COUNT, 0x00, 0x05, 0xF1, 0xD0, 0x00, 0x00, 0x01};
    begin_fares();
    expect(on_queues(count, sizeof count, 0x03), "refusal 03 for a count of a queue");
}

/* A queue is read as other data is. */
static void check_queue_reads(void)
{
    static const uint8_t get[] = {ELEMENT_GET, ELEMENT_DATA, 0x00, 0x06, 0xF1, 0xD0, 0x00, 0x00, ELEMENT_WHOLE >> 8, ELEMENT_WHOLE & 0xFF};
    static const uint8_t past[] = {ELEMENT_GET, ELEMENT_DATA, 0x00, 0x06, 0xF1, 0xD0, 0x00, sizeof TWO_FARES + 1, 0x00, 0x01};
    uint8_t answer[ELEMENT_HEADER + sizeof TWO_FARES] = {0x00, 0x00, 0x00, sizeof TWO_FARES};
    memcpy(answer + ELEMENT_HEADER, TWO_FARES, sizeof TWO_FARES);
    begin_fares();
    expect(element_execute(get, sizeof get, queues, sizeof queues, &now.session, now.room, ROOM) == 0 && left(answer, sizeof answer, 1, OLD_ERROR),
        "all bytes of a queue");
    begin_fares();
    expect(on_queues(past, sizeof past, 0x08), "refusal 08 past the bytes of a queue");
}

/* A byte of the two fares changed: what is no queue by the header's words makes the store malformed. */
static void check_queue_forms(void)
{
    static const struct { size_t at; uint8_t byte; const char *what; } cases[] = {
        {0, 6, "a next number that is present"}, {0, 8, "a next number two above the last"}, {3, 1, "a next number far above the last"},
        {4, 8, "a fare without a body"}, {4, 10, "a fare that ends in the next one"}, {5, 1, "a fare of over 208 bytes"}, {6, 2, "a fare of kind 0002"},
        {7, 1, "a fare of kind 0101"}, {8, 6, "two fares of one number"}, {8, 4, "a number left out"}, {13, 11, "a fare that ends behind used"},
        {13, 9, "a byte between the last fare and used"}, {17, 5, "two fares of one number"}, {17, 7, "a fare with the next number"}
    };
    for (size_t i = 0; i < sizeof cases / sizeof cases[0]; i++) {
        begin_fares();
        expect(element_check_store(queues, sizeof queues), "two fares well formed");
        queues[ELEMENT_RECORD_HEAD + cases[i].at] = cases[i].byte;
        expect(!element_check_store(queues, sizeof queues), "%s malformed", cases[i].what);
    }
}

/* Two fares cut short, or followed by a byte. Without a fare any next number is well formed. */
static void check_queue_ends(void)
{
    for (size_t used = 0; used <= sizeof TWO_FARES; used++) {
        bool formed = used == ELEMENT_QUEUE_HEAD || used == sizeof TWO_FARES;
        begin_queue(TWO_FARES, used);
        expect(element_check_store(queues, sizeof queues) == formed, "%zu bytes of two fares %s", used, formed ? "well formed" : "malformed");
    }
    begin_fares();
    queues[ELEMENT_RECORD_HEAD + sizeof TWO_FARES] = 1;
    expect(!element_check_store(queues, sizeof queues), "a byte behind the fares malformed");
}

static void check_queues(void)
{
    check_appends();
    check_acknowledgements();
    check_number_sizes();
    check_last_number();
    check_no_queue();
    check_queue_gets();
    check_queue_access();
    check_queue_writes();
    check_queue_reads();
    check_queue_forms();
    check_queue_ends();
}

/* Lists whose sizes do not fit. */

static const uint8_t LIST[] = {
    0x81, 0x01, 0x00, 0x02, 0x12, 0x34,                        /* no such object, after a flush */
    0x02, 0x00, 0x00, 0x06, 0xF1, 0xD0, 0x00, 0x00, 0xAB, 0xCD /* a write */
};
static uint8_t run_two(const size_t *sizes, size_t sizes_count, const size_t *spaces, size_t spaces_count)
{
    return element_run(LIST, sizeof LIST, sizes, sizes_count, now.store, STORE, &now.session, now.room, 2 * ELEMENT_LEAST_ROOM, spaces, spaces_count, now.outcomes, 2);
}

static void check_list_sizes(void)
{
    static const size_t good[] = {6, 10};
    static const size_t spaces[] = {4, 4};
    const size_t half = SIZE_MAX / 2 + 1; /* twice this is 0 */
    const size_t wrong[][2] = {
        {6, 11}, {7, 10}, {17, 0}, {0, 17}, {half, half}, {SIZE_MAX, 1}, {1, SIZE_MAX}, {6, SIZE_MAX - 5}, {SIZE_MAX - 9, 10},
        {SIZE_MAX, SIZE_MAX}, {SIZE_MAX, 17}
    };

    begin_open();
    for (size_t i = 0; i < sizeof wrong / sizeof wrong[0]; i++) {
        expect(run_two(wrong[i], 2, spaces, 2) == 2 && unchanged(),
            "outcome 2 and nothing changed for sizes %zu and %zu", wrong[i][0], wrong[i][1]);
        expect(run_two(good, 2, wrong[i], 2) == 2 && unchanged(),
            "outcome 2 and nothing changed for spaces %zu and %zu", wrong[i][0], wrong[i][1]);
    }
    expect(run_two(good, 1, spaces, 2) == 2 && unchanged(), "outcome 2 and nothing changed for one size of two");
    expect(run_two(good, 0, spaces, 2) == 2 && unchanged(), "outcome 2 and nothing changed for no size of two");
    expect(run_two(good, 2, spaces, 1) == 2 && unchanged(), "outcome 2 and nothing changed for one space of two");
    expect(run_two(good, 2, spaces, 0) == 2 && unchanged(), "outcome 2 and nothing changed for no space of two");

    expect(run_two(good, 2, spaces, 2) == 0, "outcome 0 for the right sizes");
    expect(now.outcomes[0] == 0 && now.outcomes[1] == 0, "outcomes 0 and 0 for the right sizes");
    expect(memcmp(now.room, REFUSED, 4) == 0 && memcmp(now.room + 4, DONE, 4) == 0, "a refusal and a write done for the right sizes");
    expect(now.session.error == 0x01 && now.session.opened == 1, "the last error 01 for the right sizes");
    expect(now.store[96] == 0xAB && now.store[97] == 0xCD && now.store[8] == 2, "two bytes in use in F1D0 for the right sizes");
}

/* Sizes behind the last outcome are not looked at, and bytes behind the last command or room are left. */
static void check_list_rest(void)
{
    static const size_t sizes[] = {6, SIZE_MAX, SIZE_MAX};
    static const size_t spaces[] = {4, SIZE_MAX};
    begin_open();
    expect(element_run(LIST, sizeof LIST, sizes, 3, now.store, STORE, &now.session, now.room, ROOM, spaces, 2, now.outcomes, 1) == 0,
        "outcome 0 for one command of a longer list");
    was.outcomes[0] = 0;
    expect(refused(0x01), "only the first command of a longer list carried out");
    begin_open();
    expect(element_run(LIST, sizeof LIST, sizes, 3, now.store, STORE, &now.session, now.room, ROOM, spaces, 2, now.outcomes, 0) == 0
            && unchanged(),
        "outcome 0 and nothing changed for no command of a longer list");
}

/* A list against the same commands one by one. */

typedef struct step {
    const uint8_t *command;
    size_t size;
    size_t space;
    uint8_t outcome;
    uint8_t answer[8]; /* by hand */
    size_t answer_size;
} step;

static const step STEPS[] = {
    {METADATA, sizeof METADATA, 7, 0, {0xFF, 0, 0, 0}, 4},             /* 0C: closed */
    {OPEN, sizeof OPEN, 4, 0, {0, 0, 0, 0}, 4},
    {READ_ERROR, sizeof READ_ERROR, 3, 1, {0}, 0},                     /* no room: 0C is kept */
    {READ_ERROR, sizeof READ_ERROR, 6, 0, {0, 0, 0, 1, 0x0C}, 5},
    {WRITE, sizeof WRITE, 4, 0, {0, 0, 0, 0}, 4},
    {WRITE_PAST, sizeof WRITE_PAST, 5, 0, {0xFF, 0, 0, 0}, 4},         /* 08 */
    {NULL, 0, 4, 0, {0xFF, 0, 0, 0}, 4},                               /* 04 */
    {READ_BACK, sizeof READ_BACK, 5, 0, {0xFF, 0, 0, 0}, 4},           /* 0D */
    {READ_BACK, sizeof READ_BACK, 7, 0, {0, 0, 0, 2, 0xAB, 0xCD}, 6},
    {READ_ALL, sizeof READ_ALL, 6, 0, {0, 0, 0, 2, 0xAB, 0xCD}, 6},    /* two bytes of the 65,535 asked for */
    {READ_ERROR, sizeof READ_ERROR, 5, 0, {0, 0, 0, 1, 0x0D}, 5},
    {CLOSE, sizeof CLOSE, 0, 1, {0}, 0},
    {CLOSE, sizeof CLOSE, 4, 0, {0, 0, 0, 0}, 4}
};
enum { COUNT = sizeof STEPS / sizeof STEPS[0] };

/* Commands and rooms end to end. */
static uint8_t list[256];
static uint8_t rooms[256];
static uint8_t single_rooms[256];

static void run_singly(void)
{
    size_t at = 0;
    memset(single_rooms, FILL, sizeof single_rooms);
    for (size_t i = 0; i < COUNT; i++) {
        const step *s = &STEPS[i];
        uint8_t *room = single_rooms + at;
        expect(element_execute(s->command, s->size, was.store, STORE, &was.session, room, s->space) == s->outcome,
            "outcome %u of step %zu", s->outcome, i);
        expect(memcmp(room, s->answer, s->answer_size) == 0, "the response to step %zu", i);
        for (size_t j = s->answer_size; j < s->space; j++)
            expect(room[j] == FILL, "byte %zu of the room of step %zu untouched", j, i);
        at += s->space;
    }
}

static void check_list_against_single(void)
{
    size_t sizes[COUNT];
    size_t spaces[COUNT];
    uint8_t outcomes[COUNT];
    size_t length = 0;
    size_t total = 0;
    for (size_t i = 0; i < COUNT; i++) {
        sizes[i] = STEPS[i].size;
        spaces[i] = STEPS[i].space;
        if (sizes[i] != 0)
            memcpy(list + length, STEPS[i].command, sizes[i]);
        length += sizes[i];
        total += spaces[i];
    }
    begin(0, 1, 1, 0);
    run_singly();
    memset(rooms, FILL, sizeof rooms);
    expect(element_run(list, length, sizes, COUNT, now.store, STORE, &now.session, rooms, total, spaces, COUNT, outcomes, COUNT) == 0,
        "outcome 0 for the steps as a list");
    for (size_t i = 0; i < COUNT; i++)
        expect(outcomes[i] == STEPS[i].outcome, "outcome %u of step %zu in the list", STEPS[i].outcome, i);
    expect(memcmp(rooms, single_rooms, sizeof rooms) == 0, "the same rooms by the list as by single commands");
    expect(unchanged(), "the same store and session by the list as by single commands");
    expect(now.session.opened == 0 && now.session.error == 0, "closed with no error after the steps");
}

static void check_fresh_session(void)
{
    element_session session = element_fresh_session();
    expect(session.opened == 0 && session.lcsg == 1 && session.lcsa == 1 && session.error == 0,
        "a fresh session closed, LcsG 01, LcsA 01, no error");
}

int main(void)
{
    check_fresh_session();
    check_null_without_length();
    check_null_lists();
    check_null_with_length();
    check_null_lists_with_length();
    check_is_done();
    check_own_numbers();
    check_no_number();
    check_constants();
    check_factory_objects();
    check_expression_limits();
    check_small_rooms();
    check_large_room();
    check_short_reads();
    check_largest_read();
    check_session_reads();
    check_opened();
    check_states();
    check_errors();
    check_factory();
    check_cut_stores();
    check_zeros();
    check_long_commands();
    check_large_stores();
    check_counts();
    check_refused_counts();
    check_counter_reads();
    check_counter_writes();
    check_kinds();
    check_queues();
    check_list_sizes();
    check_list_rest();
    check_list_against_single();
    printf("%u checks hold\n", checks);
    return 0;
}
