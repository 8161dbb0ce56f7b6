/*
 * A host of the secure element in C99.
 *
 *   gcc -std=c99 -O2 -Iinclude examples/host.c target/staticlib/libfirmware.a -o target/host
 *
 * usage: host          a list of commands on standard input, a line for each on standard output, as the program `bench` does
 *        host queue    the day of a fare queue: append until it is full, upload, acknowledge, go on; exits 1 where a fare is lost, doubled or out of order
 *
 * A list is commands, each led by its length in 2 bytes, most significant first. All memory is the host's own and static.
 */
#include <stdio.h>
#include <string.h>

#include "element.h"

enum {
    LONGEST_LIST = 16384,
    LENGTH_SIZE = 2 /* the bytes that lead a command */
};

/* One byte above the longest list is enough to know that a list is too long. */
static uint8_t list[LONGEST_LIST + 1];

/*
 * The element: its store and its session, kept here between commands. A host that is to find them after a reset keeps them after every command that is
 * done, a get too, before it sends the response (examples/persist.h).
 */
static uint8_t store[ELEMENT_FACTORY_STORE_SIZE];
static size_t store_size; /* the store may be a smaller one, at the front */
static element_session session;

static uint8_t room[ELEMENT_LARGEST_ROOM];

static size_t number_at(const uint8_t *bytes)
{
    return (size_t)bytes[0] << 8 | bytes[1];
}

static bool make_element(void)
{
    session = element_fresh_session();
    store_size = sizeof store;
    return element_make_factory_store(store, store_size) == ELEMENT_ANSWERED;
}

static uint8_t send_command(const uint8_t *command, size_t length)
{
    return element_execute(command, length, store, store_size, &session, room, sizeof room);
}

/* A list of commands. */

static void print_hex(const uint8_t *bytes, size_t length)
{
    for (size_t i = 0; i < length; i++)
        printf("%02X", (unsigned)bytes[i]);
}

/* The outcome and, where one stands, the response at the front of the room. */
static void print_answer(uint8_t outcome)
{
    printf("%u ", (unsigned)outcome);
    if (outcome == ELEMENT_ANSWERED)
        print_hex(room, ELEMENT_HEADER + number_at(room + 2));
    putchar('\n');
}

/* Whether a whole command, with its length, stands at the front. */
static bool is_whole(const uint8_t *rest, size_t length)
{
    return length >= LENGTH_SIZE && length - LENGTH_SIZE >= number_at(rest);
}

static void run_list(size_t length)
{
    size_t at = 0;
    while (at < length) {
        if (!is_whole(list + at, length - at)) {
            puts("cut");
            return;
        }
        size_t size = number_at(list + at);
        print_answer(send_command(list + at + LENGTH_SIZE, size));
        at += LENGTH_SIZE + size;
    }
}

static bool run_input(void)
{
    size_t length = fread(list, 1, sizeof list, stdin);
    if (ferror(stdin) || !make_element())
        return false;
    if (length > LONGEST_LIST)
        puts("too long");
    else
        run_list(length);
    return true;
}

/* The day of a fare queue. */

enum {
    QUEUE = 0xE130,
    QUEUE_MAXIMUM = 64, /* three fares of the day fit, and not four */
    FRONT = ELEMENT_HEADER + 2, /* of an append: header and object */
    FARES = 10
};

static const char *const DAY[FARES] = {
    "BUS 4 A-C", "TRAM 11 B-F", "BUS 27 C-D", "BUS 4 D-A", "METRO 2 A-H", "TRAM 9 F-B", "BUS 31 A-B", "BUS 4 C-E", "TRAM 11 E-A", "METRO 2 H-C"
};

/* What the office has received, in this order. */
static struct {
    uint32_t number;
    size_t size;
    uint8_t body[ELEMENT_LARGEST_BODY];
} office[FARES];
static size_t received;

static void put_low_first(uint8_t *at, unsigned number)
{
    at[0] = (uint8_t)number;
    at[1] = (uint8_t)(number >> 8);
}

/* A number of so many bytes, least significant first, as in the data of a queue. */
static uint32_t low_first_at(const uint8_t *at, size_t size)
{
    uint32_t number = 0;
    while (size-- > 0)
        number = number << 8 | at[size];
    return number;
}

/* A store of one record, in zeroed bytes: an empty queue that is always granted. */
static bool make_queue(void)
{
    session = element_fresh_session();
    store_size = ELEMENT_RECORD_HEAD + QUEUE_MAXIMUM;
    put_low_first(store, ELEMENT_RECORD_HEAD + QUEUE_MAXIMUM);
    put_low_first(store + 2, ELEMENT_KIND_QUEUE);
    put_low_first(store + 4, QUEUE);
    put_low_first(store + 6, QUEUE_MAXIMUM);
    put_low_first(store + 8, ELEMENT_QUEUE_HEAD);
    store[10] = ELEMENT_CREATION;
    for (size_t slot = 12; slot < ELEMENT_RECORD_HEAD; slot += ELEMENT_SLOT)
        store[slot] = 1; /* the size of the expression ELEMENT_ALWAYS */
    return element_check_store(store, store_size);
}

static bool open_application(void)
{
    static const uint8_t open[] = "\x70\x00\x00\x10" ELEMENT_IDENTIFIER;
    return element_is_done(send_command(open, sizeof open - 1), room);
}

/* Sends a command, prints the end of its line, and returns 0 or the number of the refusal. */
static uint8_t tell(const uint8_t *command, size_t length)
{
    send_command(command, length);
    uint8_t number = element_refusal_of(command, length, store, store_size, &session, room, sizeof room);
    if (number == ELEMENT_NO_ERROR)
        puts(": done");
    else
        printf(": refused %02X\n", (unsigned)number);
    return number;
}

static uint8_t append(const char *body)
{
    size_t size = strlen(body);
    uint8_t command[FRONT + ELEMENT_LARGEST_BODY] = {ELEMENT_SET, ELEMENT_APPEND, 0, (uint8_t)(2 + size), QUEUE >> 8, QUEUE & 0xFF};
    memcpy(command + FRONT, body, size);
    printf("append %s", body);
    return tell(command, FRONT + size);
}

static uint8_t acknowledge(uint32_t number)
{
    const uint8_t command[] = {
        ELEMENT_SET, ELEMENT_ACKNOWLEDGE, 0, 6, QUEUE >> 8, QUEUE & 0xFF,
        (uint8_t)(number >> 24), (uint8_t)(number >> 16), (uint8_t)(number >> 8), (uint8_t)number
    };
    printf("acknowledge %lu", (unsigned long)number);
    return tell(command, sizeof command);
}

/* Sends a fare to the office; not if the office has as many as the day has. */
static bool upload_fare(uint32_t number, const uint8_t *body, size_t size)
{
    if (received == FARES || size > ELEMENT_LARGEST_BODY)
        return false;
    office[received].number = number;
    office[received].size = size;
    memcpy(office[received].body, body, size);
    received++;
    printf("upload %lu: %.*s\n", (unsigned long)number, (int)size, (const char *)body);
    return true;
}

/* The length of the fare at the front, or 0 where no whole one stands there. */
static size_t fare_length(const uint8_t *rest, size_t size)
{
    size_t length = size > ELEMENT_FARE_HEAD ? low_first_at(rest, 2) : 0;
    return length > ELEMENT_FARE_HEAD && length <= size ? length : 0;
}

/* Reads the whole queue, uploads its fares, and only then acknowledges the last of them. */
static bool upload(void)
{
    static const uint8_t get[] = {ELEMENT_GET, ELEMENT_DATA, 0, 6, QUEUE >> 8, QUEUE & 0xFF, 0, 0, ELEMENT_WHOLE >> 8, ELEMENT_WHOLE & 0xFF};
    const uint8_t *data = room + ELEMENT_HEADER;
    if (!element_is_done(send_command(get, sizeof get), room))
        return false;
    size_t used = number_at(room + 2);
    size_t at = ELEMENT_QUEUE_HEAD;
    uint32_t last = ELEMENT_NO_NUMBER;
    while (at < used) {
        size_t length = fare_length(data + at, used - at);
        if (length == 0)
            return false;
        last = low_first_at(data + at + 4, 4);
        if (!upload_fare(last, data + at + ELEMENT_FARE_HEAD, length - ELEMENT_FARE_HEAD))
            return false;
        at += length;
    }
    return last != ELEMENT_NO_NUMBER && acknowledge(last) == ELEMENT_NO_ERROR;
}

/* The office has every fare of the day, once and in order, under the numbers from 0 on. */
static bool all_uploaded(void)
{
    for (size_t i = 0; i < received; i++)
        if (office[i].number != i || office[i].size != strlen(DAY[i]) || memcmp(office[i].body, DAY[i], office[i].size) != 0)
            return false;
    return received == FARES;
}

/* A fare that a full queue refuses is appended again after the upload. */
static bool run_day(void)
{
    size_t accepted = 0;
    while (accepted < FARES) {
        uint8_t number = append(DAY[accepted]);
        if (number == ELEMENT_NO_ERROR)
            accepted++;
        else if (number != ELEMENT_BOUNDARY_EXCEEDED || !upload())
            return false;
    }
    return upload() && all_uploaded();
}

static bool run_queue(void)
{
    if (!make_queue() || !open_application() || !run_day()) {
        fputs("host: a fare is lost, doubled or out of order\n", stderr);
        return false;
    }
    printf("%zu fares accepted, each uploaded once and in order\n", received);
    /* As after a cut of the power, where it is not known whether the acknowledgement was kept. */
    return acknowledge(FARES - 1) == ELEMENT_INVALID_DATA;
}

int main(int arguments, char **words)
{
    bool ended;
    if (arguments == 2 && strcmp(words[1], "queue") == 0)
        ended = run_queue();
    else if (arguments == 1)
        ended = run_input();
    else {
        fputs("usage: host [queue]\n", stderr);
        return 1;
    }
    return fflush(stdout) == 0 && !ferror(stdout) && ended ? 0 : 1;
}
