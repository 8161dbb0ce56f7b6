/*
 * The harness's frame: reads a stream of items, hands each to cases.c or streams.c, and judges its end. Prints the first differences, then only
 * counts; how far it is; figures. Leaves with 0 where nothing differs, with 1 where something does, with 2 where the stream is not in form, the
 * clock does not count instructions or a stack is used up.
 */
#include <stdarg.h>

#include "harness.h"
#include "support.h"

enum {
    SHOWN = 10,     /* differences that are printed */
    EVERY = 10000,  /* commands or pieces between two lines that say how far it is */
    TRIED = 100000, /* instructions by which the clock is tried */
    GUARDED = 0xC7
};

static uint32_t compared, differences, last_differing, differing, item;
static uint32_t around; /* instructions that cost_begin and cost_end take themselves */

/* Printing. */

static char line[512];
static size_t end;

static void put(char c)
{
    if (end + 1 < sizeof line)
        line[end++] = c;
}

static void put_number(unsigned number)
{
    char digits[10];
    size_t count = 0;
    do {
        digits[count++] = (char)('0' + number % 10);
        number /= 10;
    } while (number != 0);
    while (count != 0)
        put(digits[--count]);
}

static void put_text(const char *text)
{
    while (*text != 0)
        put(*text++);
}

static void put_byte(unsigned byte)
{
    static const char digits[] = "0123456789ABCDEF";
    put(digits[byte >> 4 & 0x0F]);
    put(digits[byte & 0x0F]);
}

void say(const char *form, ...)
{
    va_list arguments;
    va_start(arguments, form);
    for (end = 0; *form != 0; form++) {
        if (*form != '%') {
            put(*form);
            continue;
        }
        form++;
        if (*form == 's')
            put_text(va_arg(arguments, const char *));
        else if (*form == 'u')
            put_number(va_arg(arguments, unsigned));
        else {
            put_byte(va_arg(arguments, unsigned));
            form += 2;
        }
    }
    va_end(arguments);
    put('\n');
    line[end] = 0;
    machine_print(line);
}

/* The stream. */

void stop(const char *why)
{
    say("the stream is not in form at item %u, after %u %s: %s", (unsigned)item, (unsigned)compared, counted, why);
    machine_leave(2);
}

void read_bytes(uint8_t *into, size_t length)
{
    if (!machine_read(into, length))
        stop("it ends early");
}

uint32_t read_number(size_t size)
{
    uint8_t bytes[4];
    uint32_t number = 0;
    read_bytes(bytes, size);
    for (size_t i = 0; i < size; i++)
        number = number << 8 | bytes[i];
    return number;
}

size_t read_length(size_t size, size_t limit)
{
    size_t length = read_number(size);
    if (length > limit)
        stop("a length above its limit");
    return length;
}

/* Comparing. */

static bool another_difference(void)
{
    if (last_differing != item) {
        last_differing = item;
        differing++;
    }
    return differences++ < SHOWN;
}

void same_number(const char *part, const char *field, uint32_t is, uint32_t due)
{
    if (is != due && another_difference())
        say("differs: item %u, after %u %s, %s: %s is %u, due is %u", (unsigned)item, (unsigned)compared, counted, part, field, (unsigned)is, (unsigned)due);
}

void same_bytes(const char *part, const char *field, const uint8_t *is, const uint8_t *due, size_t length)
{
    size_t at = 0;
    if (memcmp(is, due, length) == 0)
        return;
    while (is[at] == due[at])
        at++;
    if (another_difference())
        say("differs: item %u, after %u %s, %s: %s at byte %u of %u is %02X, due is %02X", (unsigned)item, (unsigned)compared, counted, part, field,
            (unsigned)at, (unsigned)length, (unsigned)is[at], (unsigned)due[at]);
}

void count_one(void)
{
    compared++;
    if (compared % EVERY == 0)
        say("so far %u %s, %u differences", (unsigned)compared, counted, (unsigned)differences);
}

/* What is lent. */

const uint8_t *lend_constant(const uint8_t *bytes, size_t length)
{
    return length == 0 && item % 2 == 0 ? NULL : bytes;
}

lent lend(uint8_t *area, const uint8_t *bytes, size_t length)
{
    lent l = {area + GUARD + (item % 4 == 3 ? item / 4 % 4 : 0), length};
    if (lend_constant(bytes, length) == NULL) {
        l.bytes = NULL;
        return l;
    }
    memset(area, GUARDED, GUARD + 3);
    memcpy(l.bytes, bytes, length);
    memset(l.bytes + length, GUARDED, GUARD);
    return l;
}

void same_lent(const char *part, const char *field, lent is, const uint8_t *due)
{
    static const uint8_t guard[GUARD] = {GUARDED, GUARDED, GUARDED, GUARDED, GUARDED, GUARDED, GUARDED, GUARDED,
        GUARDED, GUARDED, GUARDED, GUARDED, GUARDED, GUARDED, GUARDED, GUARDED};
    if (is.bytes == NULL)
        return;
    same_bytes(part, field, is.bytes, due, is.length);
    same_bytes(part, "what stands before what is lent", is.bytes - GUARD, guard, GUARD);
    same_bytes(part, "what stands behind what is lent", is.bytes + is.length, guard, GUARD);
}

/* Stacks. Each word is painted with a value of its own: a copy of another word does not pass for paint. */

static uint32_t paint(size_t at)
{
    return 0x9E3779B9U * (uint32_t)(at + 1);
}

void prepare(entry *e, const char *name, void (*call)(void), uint32_t *stack)
{
    e->name = name;
    e->call = call;
    e->stack = stack;
    for (size_t i = 0; i < STACK_WORDS; i++)
        e->stack[i] = paint(i);
}

void call_entry(entry *e)
{
    e->calls++;
    machine_call(e->call, e->stack + STACK_WORDS);
}

void show_stack(const entry *e)
{
    size_t at = 0;
    if (e->calls == 0) {
        say("stack: %s was not called", e->name);
        return;
    }
    while (at < STACK_WORDS && e->stack[at] == paint(at))
        at++;
    if (at == 0) {
        say("%s: a stack of %u bytes is used up", e->name, (unsigned)(sizeof e->stack[0] * STACK_WORDS));
        machine_leave(2);
    }
    const uint8_t *lowest = (const uint8_t *)(e->stack + at);
    say("stack: %s %u bytes in %u calls", e->name, (unsigned)(lowest < e->pointer ? e->pointer - lowest : 0), (unsigned)e->calls);
}

/* Instructions between the two calls. They take the same way each time, so that what they take themselves can be subtracted. */

__attribute__((noinline)) void cost_begin(cost *c)
{
    c->begun = machine_clock();
}

__attribute__((noinline)) void cost_end(cost *c)
{
    uint32_t took = machine_instructions(c->begun) - around;
    c->sum += took;
    c->calls++;
    if (took > c->most)
        c->most = took;
}

/* The clock by a loop of known length, within one in a thousand. */
static void try_clock(void)
{
    static cost nothing, loop;
    cost_begin(&nothing);
    cost_end(&nothing);
    around = nothing.most;
    cost_begin(&loop);
    machine_spend(TRIED);
    cost_end(&loop);
    if (loop.most < TRIED - TRIED / 1000 || loop.most > TRIED + TRIED / 1000) {
        say("the clock does not count instructions: it has %u for a loop of %u", (unsigned)loop.most, (unsigned)TRIED);
        machine_leave(2);
    }
    say("clock: %u instructions for a loop of %u", (unsigned)loop.most, (unsigned)TRIED);
}

static void take_items(void)
{
    uint8_t letter;
    for (;;) {
        item++;
        letter = (uint8_t)read_number(1);
        if (letter == 'E')
            return;
        if (!take_item(letter))
            stop("no item has this letter");
    }
}

static void take_end(void)
{
    uint8_t more;
    uint32_t due = read_number(4);
    if (due != compared)
        say("the stream counts %u %s, %u were compared", (unsigned)due, counted, (unsigned)compared);
    if (due != compared || compared == 0)
        stop(compared == 0 ? "it has nothing to compare" : "its count at the end differs");
    if (machine_read(&more, 1))
        stop("it goes on after its end");
}

int harness(void)
{
    try_clock();
    begin();
    take_items();
    take_end();
    show_figures();
    say("%u %s compared: %u differences, in %u items", (unsigned)compared, counted, (unsigned)differences, (unsigned)differing);
    return differences != 0;
}
