/*
 * The secure element's object store: get, set, open and close of numbered objects, proved against its rules.
 *
 * C99, with an int of more than 16 bits; it compiles as C++11 too. Every byte of commands, responses, metadata and the store is explained in
 * docs/FORMATS.md.
 *
 * On x86-64 link libfirmware.a (`make library`), on other controllers compile port/element.c. The library takes no memory of its own, keeps nothing
 * between calls, and calls nothing but memset (element.c: also memcpy and memmove, as the compiler puts them in). Calls on different buffers may run
 * at the same time.
 *
 * What a caller owes: each pointer is good for the length that follows it, for the whole call; nothing else writes what is lent meanwhile;
 * and no two buffers of one call overlap, except that `const` ones may. A pointer whose length is 0 may be NULL; a session may not.
 * Everything else is handled: no byte of a command, a store, a session or a room, and no length, leads to anything but the answers below.
 * Where a pointer might be NULL, call the `_checked` functions at the end of this file.
 *
 * Numbers in commands and responses, and in a counter's data, stand most significant byte first. Numbers in the store stand least significant byte
 * first, those in a queue's data too, also where a get answers that data.
 */
#ifndef ELEMENT_H
#define ELEMENT_H

#include <stdbool.h>
#include <stddef.h>
#include <stdint.h>

#ifdef __cplusplus
extern "C" {
#endif

/*
 * The version of this interface: it changes with the interface. The minor number rises where something is added, the major number where a host
 * that was written for the version before may have to be changed.
 */
#define ELEMENT_VERSION_MAJOR 3
#define ELEMENT_VERSION_MINOR 2

/* Outcome numbers: what a call returns. */
enum {
    ELEMENT_ANSWERED = 0,  /* a response stands at the front of the room (or: the call did its work) */
    ELEMENT_NO_ROOM = 1,   /* the room is under 4 bytes: no response, nothing changed */
    ELEMENT_WRONG_SIZE = 2 /* a buffer has not the size that the call needs, or (`_checked`) is NULL: nothing changed */
};

/* The first byte of a response. */
enum {
    ELEMENT_STATUS_DONE = 0x00,
    ELEMENT_STATUS_REFUSED = 0xFF /* the response is FF 00 00 00; the last error is the refusal's number, or a higher one that stood there */
};

/*
 * Why a command is refused. The last error takes the number if it is higher than the one that stands there, and keeps it until it is read or flushed:
 * after a refused command with ELEMENT_FLUSH it is exactly that command's own number. element_refusal_of tells it without the flush.
 */
enum {
    ELEMENT_NO_ERROR = 0x00,
    ELEMENT_INVALID_OBJECT = 0x01,     /* no such object */
    ELEMENT_INVALID_PARAM = 0x03,      /* unknown Param for this Cmd, a count of what is no counter, or an append or acknowledge of what is no queue */
    ELEMENT_INVALID_LENGTH = 0x04,     /* the command's length, or InLen, is wrong */
    ELEMENT_INVALID_DATA = 0x05,       /* metadata, life cycle value or application identifier not allowed; no fare present has the number (acknowledge) */
    ELEMENT_INTERNAL_ERROR = 0x06,     /* the store is malformed, or LcsG or LcsA is no state */
    ELEMENT_ACCESS_DENIED = 0x07,      /* the access condition does not hold: a life cycle state, or a counter that is used up; or a write to a queue */
    ELEMENT_BOUNDARY_EXCEEDED = 0x08,  /* offset past used (get); past the maximum, or not all of a counter (write); at the threshold, or offset not 0 (count);
                                          the fare does not fit behind the others (append) */
    ELEMENT_INVALID_COMMAND = 0x0A,    /* unknown Cmd */
    ELEMENT_NOT_AVAILABLE = 0x0C,      /* the application is closed, or terminated */
    ELEMENT_INSUFFICIENT_BUFFER = 0x0D /* the response does not fit the room; no number is left (append) */
};

/* Life cycle states. */
enum {
    ELEMENT_CREATION = 0x01,
    ELEMENT_INITIALISATION = 0x03,
    ELEMENT_OPERATIONAL = 0x07,
    ELEMENT_TERMINATION = 0x0F
};

/*
 * Commands. A command is Cmd in one byte, Param in one byte, InLen in two bytes, then InLen bytes of InData. The numbers behind the names are
 * bytes; Cmd and Param are hex.
 *
 *   Cmd       Param                InLen      InData                                    OutData of the response
 *   01 get    00 data              6          object 2, offset 2, length 2              up to length bytes of data
 *   01 get    01 metadata          2          object 2                                  20, L, then L bytes of fields
 *   02 set    00 write             5 or more  object 2, offset 2, one byte or more      none
 *   02 set    40 erase and write   5 or more  object 2, offset 2, one byte or more      none
 *   02 set    01 metadata          4 or more  object 2, 20, L, then L bytes of fields   none
 *   02 set    02 count             5          object 2, offset 2 (0), step 1            none
 *   02 set    04 append            3 to 202   object 2, a body of 1 to 200              none
 *   02 set    05 acknowledge       6          object 2, number 4                        none
 *   70 open   00                   16         ELEMENT_IDENTIFIER                        none
 *   71 close  00                   0          none                                      none
 *
 * A get of data answers the bytes in use from offset on, at most length of them, and OutLen says how many: they may be fewer than length. With
 * offset equal to used there are none; an offset past used is refused with 08.
 *
 * A get of data asks the object's read expression, every set its change expression; a get of metadata asks none. Each that is done may use up
 * counters (see access expressions below): so a get of data may change the store too.
 *
 * With ELEMENT_FLUSH set in Cmd, the last error becomes 0 first.
 */
enum {
    ELEMENT_GET = 0x01,
    ELEMENT_SET = 0x02,
    ELEMENT_OPEN = 0x70,
    ELEMENT_CLOSE = 0x71,
    ELEMENT_FLUSH = 0x80,
    ELEMENT_DATA = 0x00,           /* get, set; open and close have the same Param */
    ELEMENT_METADATA = 0x01,       /* get, set */
    ELEMENT_COUNT = 0x02,          /* set */
    ELEMENT_APPEND = 0x04,         /* set */
    ELEMENT_ACKNOWLEDGE = 0x05,    /* set */
    ELEMENT_ERASE_AND_WRITE = 0x40 /* set */
};

/* A length of a get of data that asks for all that is in use from the offset on. */
enum { ELEMENT_WHOLE = 0xFFFF };

/* The identifier that opens the application. */
#define ELEMENT_IDENTIFIER "\xD2\x76\x00\x00\x04GenAuthAppl"
enum { ELEMENT_IDENTIFIER_SIZE = 16 };

/* The objects that live in the session, one byte each. A get that answers the byte of the last error sets it to 0. */
enum {
    ELEMENT_LCSG = 0xE0C0,
    ELEMENT_LCSA = 0xF1C0,
    ELEMENT_LAST_ERROR = 0xF1C2
};

/* The objects of the factory store, and their maxima in bytes. A store may hold others. */
enum {
    ELEMENT_OBJECT_F1D0 = 0xF1D0,
    ELEMENT_OBJECT_F1D1 = 0xF1D1,
    ELEMENT_OBJECT_F1D2 = 0xF1D2,
    ELEMENT_OBJECT_F1D3 = 0xF1D3,
    ELEMENT_OBJECT_F1D4 = 0xF1D4,
    ELEMENT_OBJECT_F1D5 = 0xF1D5,
    ELEMENT_OBJECT_F1D6 = 0xF1D6,
    ELEMENT_OBJECT_F1D7 = 0xF1D7,
    ELEMENT_OBJECT_F1D8 = 0xF1D8,
    ELEMENT_OBJECT_F1D9 = 0xF1D9,
    ELEMENT_OBJECT_F1DA = 0xF1DA,
    ELEMENT_OBJECT_F1DB = 0xF1DB,
    ELEMENT_OBJECT_F1E0 = 0xF1E0,
    ELEMENT_OBJECT_F1E1 = 0xF1E1,
    ELEMENT_FACTORY_OBJECTS = 14,
    ELEMENT_MAXIMUM_F1DX = 140, /* of each of F1D0 to F1DB */
    ELEMENT_MAXIMUM_F1EX = 1500 /* of each of F1E0 and F1E1 */
};

/*
 * Kinds of records. No command makes a counter or a queue, or tells a record's kind: the host's store has it.
 *
 * A counter is an object of 8 bytes: its value in 4, then its threshold in 4. A count moves the value by its step towards the threshold, up or
 * down by the record's kind, at most onto it, and is refused with 08 where the value is there or past it already. A write sets all 8 bytes.
 *
 * A queue holds fares. Its data is the next number in 4 bytes, then the fares end to end, the oldest first, up to used. A fare is
 *
 *   at   size     field
 *   0    2        length: of the whole fare, so 8 + the size of its body
 *   2    2        ELEMENT_FARE_KIND
 *   4    4        number: one more than that of the fare before it; of the last fare, one below the next number
 *   8    1 to 200 body
 *
 * all least significant byte first. An empty queue has used 4, and any next number; a new one has 0.
 *
 * An append puts a fare with the body and the next number behind the others, and the next number is then one more. It is refused with 08 where
 * used + 8 + the size of the body is above the maximum, and with 0D where the next number is ELEMENT_NO_NUMBER: so the last number given is
 * FFFFFFFE, and none is given twice. An acknowledge takes away the fare of its number and all before it, where that fare is present, and is refused
 * with 05 where it is not; the next number stays. A get of all data (ELEMENT_WHOLE) answers next number and fares. A write and an erase and write
 * are refused with 07, whatever the change expression says: nothing but an acknowledge takes a fare away.
 */
enum {
    ELEMENT_KIND_DATA = 0x0001,
    ELEMENT_KIND_COUNTER_UP = 0x0002,
    ELEMENT_KIND_QUEUE = 0x0003,
    ELEMENT_KIND_COUNTER_DOWN = 0x0004,
    ELEMENT_COUNTER_SIZE = 8, /* maximum and used of every counter */
    ELEMENT_QUEUE_HEAD = 4,   /* the next number, before the fares: the least maximum of a queue */
    ELEMENT_FARE_HEAD = 8,    /* what stands before the body in a fare */
    ELEMENT_FARE_KIND = 0x0001,
    ELEMENT_LARGEST_BODY = 200
};

/* The next number at which an append is refused. */
#define ELEMENT_NO_NUMBER 0xFFFFFFFFU

/* Metadata tags. A field is its tag, its length in one byte, its value. */
enum {
    ELEMENT_TAG_METADATA = 0x20, /* stands in front of all fields, with the length of all of them */
    ELEMENT_TAG_LCSO = 0xC0,     /* the object's life cycle state, 1 byte */
    ELEMENT_TAG_MAXIMUM = 0xC4,  /* 2 bytes; only in answers */
    ELEMENT_TAG_USED = 0xC5,     /* 2 bytes; only in answers */
    ELEMENT_TAG_CHANGE = 0xD0,   /* an access expression, 1 to 27 bytes; so the two below */
    ELEMENT_TAG_READ = 0xD1,
    ELEMENT_TAG_EXECUTE = 0xD3
};

/*
 * Access expressions: the one byte ELEMENT_ALWAYS, the one byte ELEMENT_NEVER, or conditions joined by ELEMENT_AND and ELEMENT_OR; and binds
 * first. A condition is three bytes: whose state, how it is compared, a life cycle state; or ELEMENT_CONDITION_COUNTER and the number of a
 * counter in two bytes, any two.
 *
 * The condition on a counter holds while a record of kind ELEMENT_KIND_COUNTER_UP with that number is in the store and its value is below its
 * threshold. Where an expression grants a command, its first group from the left that holds decides: each counter named in that group goes up by
 * one, once, if the command is done. A refused command moves nothing. A get shows a counter before its step. A counter that the command itself
 * wrote or counted steps after that, to the smaller of value + 1 and threshold. The step asks no expression of the counter.
 */
enum {
    ELEMENT_ALWAYS = 0x00,
    ELEMENT_NEVER = 0xFF,
    ELEMENT_CONDITION_LCSG = 0x70,
    ELEMENT_CONDITION_LCSA = 0xE0,
    ELEMENT_CONDITION_LCSO = 0xE1,
    ELEMENT_CONDITION_COUNTER = 0x40,
    ELEMENT_EQUAL = 0xFA,
    ELEMENT_GREATER = 0xFB,
    ELEMENT_LESS = 0xFC,
    ELEMENT_AND = 0xFD,
    ELEMENT_OR = 0xFE
};

/* Limits of access expressions and of the store. */
enum {
    ELEMENT_MOST_CONDITIONS = 7,    /* of one expression */
    ELEMENT_MOST_GROUPS = 3,        /* of one expression; a group is a condition, or conditions joined by and */
    ELEMENT_LARGEST_EXPRESSION = 27,
    ELEMENT_MOST_RECORDS = 32,      /* of one store; it has at least one */
    ELEMENT_RECORD_HEAD = 96,       /* what stands before the data in a record */
    ELEMENT_SLOT = 28,              /* the place of an expression in a record: its length, the expression, zeros */
    ELEMENT_LARGEST_METADATA = 100  /* OutData of a get of metadata: 20, L and the fields */
};

/* Sizes, in bytes. */
enum {
    ELEMENT_FACTORY_STORE_SIZE = 6024, /* what element_make_factory_store needs, exactly */
    ELEMENT_LARGEST_STORE = 16384,
    ELEMENT_LARGEST_OBJECT = 1500,
    ELEMENT_LARGEST_COMMAND = 1557,
    ELEMENT_HEADER = 4,         /* what stands before InData in a command, and before OutData in a response */
    ELEMENT_LEAST_ROOM = 4,     /* enough for a status */
    ELEMENT_LARGEST_ROOM = 1504 /* enough for every response */
};

/*
 * What the element keeps between commands. The host keeps it, beside the store.
 * Every value of every byte has a meaning. opened: 0 is closed, any other value is open; its value changes only when the
 * application's state does, to 1 or 0. lcsg and lcsa: with a value that is no life cycle state, every command that has room for a status is refused
 * with 06. error: the last error.
 */
typedef struct element_session {
    uint8_t opened;
    uint8_t lcsg;
    uint8_t lcsa;
    uint8_t error;
} element_session;

/*
 * Carries out one command. There is an answer to every command, store, session and room.
 * Returns ELEMENT_ANSWERED with a response at the front of the room, or ELEMENT_NO_ROOM with nothing changed.
 * A response is status, 00, OutLen in two bytes, OutData. Room bytes behind it keep their values.
 * A refused command changes no byte of the store and, of the session, only the last error, which after any flush is the larger of
 * itself and the number of the refusal. Room, store and session after a call are exactly those that the rules give.
 * Every get of data and every set that is done may change the store, a get by the counters that its read expression uses up: a host that keeps
 * the store over a reset keeps it after each of these, before it sends the response.
 */
uint8_t element_execute(const uint8_t *command, size_t command_len, uint8_t *store, size_t store_len, element_session *session, uint8_t *room, size_t room_len);

/*
 * Carries out a list of commands, each on what the one before left, exactly as that many calls of element_execute would: commands
 * stand end to end, the i-th is sizes[i] bytes long; rooms stand end to end, the i-th is spaces[i] bytes long; the i-th outcome
 * number goes to outcomes[i]. There are as many commands as outcomes. (The value of the session's `opened` changes only if the
 * application ends in another state than it began in.)
 * The store may be changed by gets of data too, as by element_execute.
 * Returns ELEMENT_ANSWERED; or ELEMENT_WRONG_SIZE with nothing changed, if there are fewer sizes or spaces than outcomes, or if they add up
 * to more than commands_len or rooms_len. Sizes and spaces past the last outcome are not looked at.
 */
uint8_t element_run(const uint8_t *commands, size_t commands_len, const size_t *sizes, size_t sizes_count, uint8_t *store, size_t store_len, element_session *session, uint8_t *rooms, size_t rooms_len, const size_t *spaces, size_t spaces_count, uint8_t *outcomes, size_t outcomes_count);

/* Whether the store is well formed. On one that is not, every command that has room for a status is refused with 06. */
bool element_check_store(const uint8_t *store, size_t store_len);

/*
 * Fills the store with the fourteen objects of the factory table and returns ELEMENT_ANSWERED; or returns ELEMENT_WRONG_SIZE with nothing
 * changed, if store_len is not ELEMENT_FACTORY_STORE_SIZE.
 */
uint8_t element_make_factory_store(uint8_t *store, size_t store_len);

/* The session of a new element: closed, LcsG 01, LcsA 01, last error 0. */
element_session element_fresh_session(void);

/*
 * Whether a command was done: the call answered, and the status is 00. `outcome` is what element_execute returned, or what element_run put into
 * outcomes[i]; `room` is the room of that command, as the call left it. The room is looked at only where a response stands.
 */
static inline bool element_is_done(uint8_t outcome, const uint8_t *room)
{
    return outcome == ELEMENT_ANSWERED && room[0] == ELEMENT_STATUS_DONE;
}

/*
 * The own number of the command that element_execute has just refused, where the last error may hold a higher one. Give it what that call was
 * given, with session, store and room as the call left them. Returns ELEMENT_NO_ERROR, and does nothing, if no refusal stands in the room.
 *
 * It carries the command out once more on a copy of the session with a last error of 0. No step that judges a command looks at the last error,
 * and the refusal changed nothing else: so the command is refused again with the same number (theorem refused_again), and that number is then
 * the last error of the copy (theorem its_number; both in crates/demands/proofs/Resent.antt). Session, store and room stay as they are.
 */
static inline uint8_t element_refusal_of(const uint8_t *command, size_t command_len, uint8_t *store, size_t store_len, const element_session *session, uint8_t *room, size_t room_len)
{
    element_session again = *session;
    if (room_len < ELEMENT_LEAST_ROOM || room[0] != ELEMENT_STATUS_REFUSED)
        return ELEMENT_NO_ERROR;
    again.error = ELEMENT_NO_ERROR;
    element_execute(command, command_len, store, store_len, &again, room, room_len);
    return again.error;
}

/*
 * The same functions for pointers that may be NULL. A NULL session and a NULL room of element_execute_checked are ELEMENT_WRONG_SIZE, and so is
 * any other NULL with a length above 0; it is looked for before anything else, and nothing is changed. Any other NULL with length 0 is an empty
 * buffer. A NULL store is not well formed, and too small for the factory's.
 */
static inline bool element_missing(const void *buffer, size_t length)
{
    return buffer == NULL && length != 0;
}

static inline uint8_t element_execute_checked(const uint8_t *command, size_t command_len, uint8_t *store, size_t store_len, element_session *session, uint8_t *room, size_t room_len)
{
    if (session == NULL || room == NULL || element_missing(command, command_len) || element_missing(store, store_len))
        return ELEMENT_WRONG_SIZE;
    return element_execute(command, command_len, store, store_len, session, room, room_len);
}

static inline uint8_t element_run_checked(const uint8_t *commands, size_t commands_len, const size_t *sizes, size_t sizes_count, uint8_t *store, size_t store_len, element_session *session, uint8_t *rooms, size_t rooms_len, const size_t *spaces, size_t spaces_count, uint8_t *outcomes, size_t outcomes_count)
{
    if (session == NULL || element_missing(commands, commands_len) || element_missing(sizes, sizes_count) || element_missing(store, store_len) || element_missing(rooms, rooms_len) || element_missing(spaces, spaces_count) || element_missing(outcomes, outcomes_count))
        return ELEMENT_WRONG_SIZE;
    return element_run(commands, commands_len, sizes, sizes_count, store, store_len, session, rooms, rooms_len, spaces, spaces_count, outcomes, outcomes_count);
}

static inline bool element_check_store_checked(const uint8_t *store, size_t store_len)
{
    return store != NULL && element_check_store(store, store_len);
}

static inline uint8_t element_make_factory_store_checked(uint8_t *store, size_t store_len)
{
    return store == NULL ? (uint8_t)ELEMENT_WRONG_SIZE : element_make_factory_store(store, store_len);
}

#ifdef __cplusplus
}
#endif

#endif
