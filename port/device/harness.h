/*
 * What cases.c and streams.c share: reading the stream, comparing bytes, calling an entry on a stack of its own, and printing.
 */
#ifndef HARNESS_H
#define HARNESS_H

#include "machine.h"

enum {
    GUARD = 16,             /* bytes on either side of what is lent, which no call may change */
    AROUND = 2 * GUARD + 3, /* what lending takes more than the bytes */
    STACK_WORDS = 8192      /* of the stack of an entry */
};

/* An entry of the library: a function that calls it, on a painted stack of its own. */
typedef struct entry {
    const char *name;
    void (*call)(void);
    uint8_t *pointer; /* the stack pointer at the call: the function sets it */
    uint32_t calls;
    uint32_t *stack;
} entry;

/* Instructions of calls. */
typedef struct cost {
    uint64_t sum;
    uint32_t most;
    uint32_t calls;
    uint32_t begun;
} cost;

/* Bytes that a call is lent, between guards. */
typedef struct lent {
    uint8_t *bytes;
    size_t length;
} lent;

/* Of the stream: given by cases.c or by streams.c. */
extern const char *const counted; /* what is counted at its end: commands or pieces */
void begin(void);                 /* before the first item */
bool take_item(uint8_t letter);   /* false where there is no such item */
void show_figures(void);          /* after the last one */

/* Printing; forms are %s, %u and %02X of printf. */
void say(const char *form, ...) __attribute__((format(printf, 1, 2)));

/* The stream. What is cut short or is longer than its limit ends the run. */
uint32_t read_number(size_t size);
void read_bytes(uint8_t *into, size_t length);
size_t read_length(size_t size, size_t limit);
void stop(const char *why) __attribute__((noreturn));

/* Comparing. The part is the entry or what else is judged, the field what of it. */
void same_number(const char *part, const char *field, uint32_t is, uint32_t due);
void same_bytes(const char *part, const char *field, const uint8_t *is, const uint8_t *due, size_t length);

/* A command or piece has been compared. */
void count_one(void);

/* A copy of the bytes in the area, which has room for them and for AROUND more: in some items at another alignment, and of no bytes NULL. */
lent lend(uint8_t *area, const uint8_t *bytes, size_t length);
/* The bytes themselves, for what a call only reads: in some items of no bytes NULL. */
const uint8_t *lend_constant(const uint8_t *bytes, size_t length);
/* That the bytes are as they are due, and the guards whole. */
void same_lent(const char *part, const char *field, lent is, const uint8_t *due);

/* Calls on painted stacks, and what stands between the begin and the end of a cost. */
void prepare(entry *e, const char *name, void (*call)(void), uint32_t *stack);
void call_entry(entry *e);
void show_stack(const entry *e);
void cost_begin(cost *c);
void cost_end(cost *c);

#endif
