/*
 * Cuts the power at every byte that examples/persist.c writes or erases, starts again and loads: the state before or after, whole, is found; also
 * where a get has changed the store. Then the same with a single copy and no marker, which is torn. After a cut in the save of an append or an
 * acknowledge the host repeats it, and has each fare once.
 *
 * usage: persist [STRIDE]      every byte, or every STRIDE-th
 */
#include <setjmp.h>
#include <stdarg.h>
#include <stdio.h>
#include <stdlib.h>
#include <string.h>

#include "persist.h"

enum {
    FLASH = PERSIST_COPIES * PERSIST_PAGES * FLASH_PAGE,
    STORE = ELEMENT_FACTORY_STORE_SIZE,
    LARGE = 1500,
    FAR_APART = 251       /* the stride of two cuts in a row */
};

static void expect(bool held, const char *what, ...)
{
    if (held)
        return;
    va_list rest;
    va_start(rest, what);
    fputs("does not hold: ", stdout);
    vprintf(what, rest);
    putchar('\n');
    va_end(rest);
    exit(1);
}

/* The flash: a byte array whose power ends after so many steps. A step is a byte written or erased. */

static uint8_t flash[FLASH];
static long power;
static bool torn; /* the byte at hand, or the rest of the page, is then left with some of its bits changed */
static jmp_buf off;

static uint8_t some_bits(void)
{
    static uint32_t seed = 1;
    seed = seed * 1664525 + 1013904223;
    return (uint8_t)(seed >> 24);
}

void flash_write(size_t at, uint8_t byte)
{
    expect(flash[at] == FLASH_ERASED, "byte %zu of the flash is erased when it is written", at);
    if (power-- == 0) {
        if (torn)
            flash[at] = byte | some_bits();
        longjmp(off, 1);
    }
    flash[at] = byte;
}

void flash_erase(size_t page)
{
    uint8_t *start = flash + page * FLASH_PAGE;
    for (size_t i = 0; i < FLASH_PAGE; i++) {
        if (power-- == 0) {
            for (; torn && i < FLASH_PAGE; i++)
                start[i] |= some_bits();
            longjmp(off, 1);
        }
        start[i] = FLASH_ERASED;
    }
}

uint8_t flash_read(size_t at)
{
    return flash[at];
}

/* States of the element, made by commands. */

typedef struct element {
    uint8_t store[STORE];
    element_session session;
} element;

static element older, old, new, now;
static uint8_t room[ELEMENT_LARGEST_ROOM];

static void send(element *e, const void *command, size_t size)
{
    expect(element_execute(command, size, e->store, STORE, &e->session, room, sizeof room) == ELEMENT_ANSWERED && room[0] == ELEMENT_STATUS_DONE,
        "a command of the test is done");
}

/* All 1,500 bytes of F1E0, and a fare in F1D0. */
static void fill(element *e, uint8_t byte)
{
    uint8_t command[8 + LARGE] = {ELEMENT_SET, ELEMENT_DATA, (4 + LARGE) / 256, (4 + LARGE) % 256, 0xF1, 0xE0, 0, 0};
    uint8_t fare[] = {ELEMENT_SET, ELEMENT_DATA, 0, 5, 0xF1, 0xD0, 0, 0, byte};
    memset(command + 8, byte, LARGE);
    send(e, command, sizeof command);
    send(e, fare, sizeof fare);
}

static void set_state(element *e, unsigned object, uint8_t value)
{
    uint8_t command[] = {ELEMENT_SET, ELEMENT_DATA, 0, 5, (uint8_t)(object >> 8), (uint8_t)object, 0, 0, value};
    send(e, command, sizeof command);
}

/* Each state is open, and has a last error: neither is kept. */
static void make_states(void)
{
    static const uint8_t open[] = "\x70\x00\x00\x10" ELEMENT_IDENTIFIER;
    older.session = element_fresh_session();
    element_make_factory_store(older.store, STORE);
    send(&older, open, sizeof open - 1);
    fill(&older, 0x11);
    older.session.error = ELEMENT_ACCESS_DENIED;
    old = older;
    fill(&old, 0x22);
    set_state(&old, ELEMENT_LCSG, ELEMENT_INITIALISATION);
    new = old;
    fill(&new, 0x33);
    set_state(&new, ELEMENT_LCSA, ELEMENT_INITIALISATION);
}

/* What was loaded is all of that state, as it is after a reset. */
static bool is_now(const element *e)
{
    return memcmp(now.store, e->store, STORE) == 0 && now.session.opened == 0 && now.session.error == 0 && now.session.lcsg == e->session.lcsg
        && now.session.lcsa == e->session.lcsa;
}

/* A save that ends, or is cut after so many steps; returns whether it ended. */

static void save(const element *e)
{
    persist_save(e->store, &e->session);
}

/* Page by page where the store stands, as a host without copies would. */
static void save_single(const element *e)
{
    for (size_t i = 0; i < STORE; i++) {
        if (i % FLASH_PAGE == 0)
            flash_erase(i / FLASH_PAGE);
        flash_write(i, e->store[i]);
    }
}

static bool save_until(long steps, void (*by)(const element *), const element *e)
{
    power = steps;
    if (setjmp(off) != 0)
        return false;
    by(e);
    return true;
}

static void save_whole(void (*by)(const element *), const element *e)
{
    expect(save_until(-1, by, e), "a save with power to its end ends");
}

/* The steps that a save takes from the flash as it is. */
static long steps_of(void (*by)(const element *), const element *e)
{
    const long many = 1000000;
    expect(save_until(many, by, e), "a save ends");
    return many - power;
}

/* Starts again: nothing is left in memory. */
static void restart(void)
{
    memset(&now, 0xEE, sizeof now);
    expect(persist_load(now.store, &now.session), "a state is loaded");
    expect(element_check_store(now.store, STORE), "the loaded store is well formed");
}

/* Two copies and a marker. */

typedef struct counts {
    unsigned olds, news;
} counts;

static void cut_at(const uint8_t *before, long steps, counts *c)
{
    memcpy(flash, before, FLASH);
    bool ended = save_until(steps, save, &new);
    restart();
    expect(is_now(&old) || is_now(&new), "the old or the new state, whole, after a cut at step %ld", steps);
    expect(is_now(&new) || !ended, "the new state after a save that ended");
    expect(is_now(&old) || ended || torn, "the old state after a cut at step %ld", steps);
    c->olds += is_now(&old);
    c->news += is_now(&new);
}

/* The next save after a cut, cut at some bytes and whole. */
static void cut_again(const uint8_t *before, long steps, long total, counts *c)
{
    static uint8_t after[FLASH];
    cut_at(before, steps, &(counts){0, 0});
    memcpy(after, flash, FLASH);
    for (long again = 0; again < total; again += FAR_APART)
        cut_at(after, again, c);
    cut_at(after, total, c);
}

static void check_copies(const char *name, long stride)
{
    static uint8_t before[FLASH];
    const char *which = stride == 1 ? "each" : "some";
    memcpy(before, flash, FLASH);
    long total = steps_of(save, &new);
    counts once = {0, 0}, twice = {0, 0};
    for (int way = 0; way < 2; way++) {
        torn = way == 1;
        for (long steps = 0; steps < total; steps += stride)
            cut_at(before, steps, &once);
        cut_at(before, total, &once);
        for (long steps = 0; steps < total; steps += FAR_APART * stride)
            cut_again(before, steps, total, &twice);
    }
    printf("%s, of %ld bytes erased or written, cut at %s, before and within the byte: the old state %u times, the new one %u times, whole\n", name, total,
        which, once.olds, once.news);
    printf("%s, cut twice in a row, at some bytes: the old state %u times, the new one %u times, whole\n", name, twice.olds, twice.news);
}

/* A single copy without a marker. */

typedef struct seen {
    unsigned whole, refused, mixed;
    long first_refused, first_mixed;
} seen;

/* The element refuses every command on it with 06. */
static bool is_refused(void)
{
    static const uint8_t get[] = {ELEMENT_GET, ELEMENT_METADATA, 0, 2, 0xF1, 0xD0};
    element_execute(get, sizeof get, now.store, STORE, &now.session, room, sizeof room);
    return room[0] == ELEMENT_STATUS_REFUSED && now.session.error == ELEMENT_INTERNAL_ERROR;
}

/* The element shows old and new bytes of F1E0 in one answer, and says that all is well. */
static bool is_mixed(void)
{
    static const uint8_t get[] = {ELEMENT_GET, ELEMENT_DATA, 0, 6, 0xF1, 0xE0, 0, 0, LARGE / 256, LARGE % 256};
    send(&now, get, sizeof get);
    expect(room[2] == LARGE / 256 && room[3] == LARGE % 256, "all 1,500 bytes of F1E0 are answered");
    return memchr(room + ELEMENT_HEADER, 0x22, LARGE) != NULL && memchr(room + ELEMENT_HEADER, 0x33, LARGE) != NULL;
}

static void cut_single(const uint8_t *before, long steps, seen *s)
{
    memcpy(flash, before, FLASH);
    save_until(steps, save_single, &new);
    memcpy(now.store, flash, STORE);
    now.session = new.session;
    now.session.error = 0;
    if (memcmp(now.store, old.store, STORE) == 0 || memcmp(now.store, new.store, STORE) == 0) {
        s->whole++;
    } else if (!element_check_store(now.store, STORE)) {
        expect(is_refused(), "06 on the store of a cut at step %ld", steps);
        if (s->refused++ == 0)
            s->first_refused = steps;
    } else if (is_mixed() && s->mixed++ == 0) {
        s->first_mixed = steps;
    }
}

static void check_single(void)
{
    static uint8_t before[FLASH];
    torn = false;
    memset(flash, FLASH_ERASED, FLASH);
    save_whole(save_single, &old);
    memcpy(before, flash, FLASH);
    long total = steps_of(save_single, &new);
    seen s = {0, 0, 0, 0, 0};
    for (long steps = 0; steps <= total; steps++)
        cut_single(before, steps, &s);
    expect(s.refused > 0 && s.mixed > 0, "a single copy without a marker is torn in both ways");
    printf("a single copy without a marker, cut at each of %ld bytes: element_check_store refuses the store %u times, first after byte %ld;", total, s.refused,
        s.first_refused);
    printf(" %u times, first after byte %ld, it takes one whose F1E0 is part new and part old\n", s.mixed, s.first_mixed);
}

/* A copy that was whole, with a bit changed. */
static void check_damage(long stride)
{
    unsigned bytes = 0;
    for (size_t i = 0; i < PERSIST_COPY; i += (size_t)stride, bytes++) {
        memset(flash, FLASH_ERASED, FLASH);
        save_whole(save, &older);
        save_whole(save, &old);
        flash[PERSIST_PAGES * FLASH_PAGE + i] ^= 0x10;
        restart();
        expect(is_now(&older), "the older state, where byte %zu of the newer copy has changed", i);
    }
    flash[0] ^= 0x10;
    expect(!persist_load(now.store, &now.session), "nothing is loaded where both copies have changed");
    printf("a bit of the newer copy changed, in each of %u bytes: the older state, whole; of both copies: nothing is loaded\n", bytes);
}

/* A get that uses up a counter. */

enum {
    TRIPS = 0xF1CE, /* a counter up, before the factory's first object; both take as many bytes as that did */
    TICKET = 0xF1D0,
    TICKET_SIZE = ELEMENT_MAXIMUM_F1DX - ELEMENT_RECORD_HEAD - ELEMENT_COUNTER_SIZE,
    TICKET_AT = ELEMENT_RECORD_HEAD + ELEMENT_COUNTER_SIZE,
    VALUE_AT = ELEMENT_RECORD_HEAD + 3, /* the last byte of the counter's value */
    THRESHOLD = 3
};

/* The factory's store with F1D0 cut into a counter of trips and a ticket that is read by it. */
static void make_ticket(element *e)
{
    static const uint8_t trips[] = {ELEMENT_RECORD_HEAD + ELEMENT_COUNTER_SIZE, 0, ELEMENT_KIND_COUNTER_UP, 0, TRIPS & 0xFF, TRIPS >> 8, 8, 0, 8, 0, 1};
    static const uint8_t ticket[] = {ELEMENT_RECORD_HEAD + TICKET_SIZE, 0, ELEMENT_KIND_DATA, 0, TICKET & 0xFF, TICKET >> 8, TICKET_SIZE, 0, 1, 0, 1};
    e->session = element_fresh_session();
    e->session.opened = 1;
    element_make_factory_store(e->store, STORE);
    memset(e->store, 0, ELEMENT_RECORD_HEAD + ELEMENT_MAXIMUM_F1DX);
    memcpy(e->store, trips, sizeof trips);
    memcpy(e->store + TICKET_AT, ticket, sizeof ticket);
    for (size_t slot = 12; slot < ELEMENT_RECORD_HEAD; slot += ELEMENT_SLOT)
        e->store[slot] = e->store[TICKET_AT + slot] = 1;
    e->store[VALUE_AT + 4] = THRESHOLD;
    e->store[TICKET_AT + 40] = 3;
    e->store[TICKET_AT + 41] = ELEMENT_CONDITION_COUNTER;
    e->store[TICKET_AT + 42] = TRIPS >> 8;
    e->store[TICKET_AT + 43] = TRIPS & 0xFF;
    e->store[TICKET_AT + ELEMENT_RECORD_HEAD] = 0x54;
}

static void keep(const element *e)
{
    persist_keep(e->store, &e->session);
}

/* Gets of metadata and of the counter itself, which no condition grants: nothing is written. */
static void check_plain_gets(const element *e)
{
    static const uint8_t metadata[] = {ELEMENT_GET, ELEMENT_METADATA, 0, 2, TICKET >> 8, TICKET & 0xFF};
    static const uint8_t counter[] = {ELEMENT_GET, ELEMENT_DATA, 0, 6, TRIPS >> 8, TRIPS & 0xFF, 0, 0, 0, 8};
    element same = *e;
    send(&same, metadata, sizeof metadata);
    send(&same, counter, sizeof counter);
    expect(save_until(0, keep, &same), "nothing is written after gets that change nothing");
}

static void check_get(long stride)
{
    static const uint8_t get[] = {ELEMENT_GET, ELEMENT_DATA, 0, 6, TICKET >> 8, TICKET & 0xFF, 0, 0, 0, 1};
    memset(flash, FLASH_ERASED, FLASH);
    make_ticket(&old);
    expect(element_check_store(old.store, STORE), "the store with a ticket is well formed");
    save_whole(keep, &old);
    check_plain_gets(&old);
    for (unsigned trip = 1; trip <= THRESHOLD; trip++) {
        new = old;
        send(&new, get, sizeof get);
        expect(new.store[VALUE_AT] == trip && memcmp(new.store, old.store, STORE) != 0, "get %u moves the counter", trip);
        if (trip == THRESHOLD)
            check_copies("the save after a get that uses up a counter", stride);
        save_whole(keep, &new);
        restart();
        expect(is_now(&new), "the step of get %u is there after a reset", trip);
        check_plain_gets(&new);
        old = new;
    }
    now.session.opened = 1;
    element_execute(get, sizeof get, now.store, STORE, &now.session, room, sizeof room);
    expect(room[0] == ELEMENT_STATUS_REFUSED && now.session.error == ELEMENT_ACCESS_DENIED, "after a reset no trip is granted again");
    expect(save_until(0, keep, &now), "nothing is written after a refusal");
    printf("%d gets that use up a counter: each step is there after a reset, and gets that change nothing write nothing\n", THRESHOLD);
}

/* A queue. */

enum {
    NEXT_AT = ELEMENT_RECORD_HEAD, /* the first byte of the next number of F1D0, the first record */
    SOME = 16                      /* the stride of the cuts */
};

static const uint8_t APPEND[] = {ELEMENT_SET, ELEMENT_APPEND, 0, 6, 0xF1, 0xD0, 'F', 'A', 'R', 'E'};
static const uint8_t ACKNOWLEDGE[] = {ELEMENT_SET, ELEMENT_ACKNOWLEDGE, 0, 6, 0xF1, 0xD0, 0, 0, 0, 1};

/* The factory's store with F1D0 an empty queue, then two fares in it. */
static void make_queue(element *e)
{
    e->session = element_fresh_session();
    e->session.opened = 1;
    element_make_factory_store(e->store, STORE);
    e->store[2] = ELEMENT_KIND_QUEUE;
    e->store[8] = ELEMENT_QUEUE_HEAD;
    send(e, APPEND, sizeof APPEND);
    send(e, APPEND, sizeof APPEND);
}

/* The terminal has no answer: it reads the next number, and appends only where that has not risen. */
static void repeat_append(void)
{
    now.session.opened = 1;
    if (now.store[NEXT_AT] == old.store[NEXT_AT])
        send(&now, APPEND, sizeof APPEND);
}

/* It acknowledges again in any case: done where the first one was not kept, else 05. */
static void repeat_acknowledge(void)
{
    uint8_t due = is_now(&old) ? ELEMENT_NO_ERROR : ELEMENT_INVALID_DATA;
    now.session.opened = 1;
    element_execute(ACKNOWLEDGE, sizeof ACKNOWLEDGE, now.store, STORE, &now.session, room, sizeof room);
    expect(now.session.error == due, "%02X for the acknowledge that is repeated", (unsigned)due);
}

/* A cut in the save of a command, then the command again: the store is as after a save that ended. */
static unsigned check_repeated(void (*repeat)(void), long stride)
{
    static uint8_t before[FLASH];
    unsigned cuts = 0;
    memcpy(before, flash, FLASH);
    long total = steps_of(keep, &new);
    for (long steps = 0; steps <= total; steps += SOME * stride, cuts++) {
        torn = cuts % 2 == 1;
        memcpy(flash, before, FLASH);
        save_until(steps, keep, &new);
        restart();
        repeat();
        expect(memcmp(now.store, new.store, STORE) == 0, "each fare once after a cut at step %ld and the command again", steps);
    }
    memcpy(flash, before, FLASH);
    save_whole(keep, &new);
    restart();
    repeat();
    expect(memcmp(now.store, new.store, STORE) == 0, "each fare once after a save that ended and the command again");
    return cuts + 1;
}

static void check_queue(long stride)
{
    unsigned cuts;
    memset(flash, FLASH_ERASED, FLASH);
    make_queue(&old);
    save_whole(keep, &old);
    new = old;
    send(&new, APPEND, sizeof APPEND);
    cuts = check_repeated(repeat_append, stride);
    old = new;
    send(&new, ACKNOWLEDGE, sizeof ACKNOWLEDGE);
    cuts += check_repeated(repeat_acknowledge, stride);
    printf("an append and an acknowledge, the save cut at some bytes, then repeated: each fare is there once, %u times of %u\n", cuts, cuts);
}

int main(int arguments, char **words)
{
    long stride = arguments > 1 ? strtol(words[1], NULL, 10) : 1;
    make_states();
    memset(flash, FLASH_ERASED, FLASH);
    expect(!persist_load(now.store, &now.session), "nothing is loaded from an erased flash");
    save_whole(save, &old);
    check_copies("the second save", stride);
    memset(flash, FLASH_ERASED, FLASH);
    save_whole(save, &older);
    save_whole(save, &old);
    check_copies("a later save", stride);
    check_damage(stride);
    check_single();
    check_get(stride);
    check_queue(stride);
    return 0;
}
