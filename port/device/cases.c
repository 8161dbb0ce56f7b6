/*
 * Whole cases with what must come of them, through the functions of element.h. Each command goes by element_execute and, on copies, by element_run
 * as a list of one; and each eight commands in a row since the store was last replaced go as one list by element_run, from the state before the
 * first of them, and once more made not to fit. Outcomes, sessions, all rooms and the store must be those of the stream. Where they are not, the next
 * item goes on with the stream's.
 *
 * Numbers in the stream stand most significant byte first. Before the first item the store is empty and the session fresh.
 *
 *   S   store length 4, store, session 4                 the store and session from here on; then 1: whether the store is well formed
 *   C   room length 2, room, command length 2, command   then outcome 1, session 4, the whole room after it, 1: whether the store has changed, and
 *                                                        where it has, the whole store after it
 *   F   length 4                                         the factory maker on that many bytes EE; then outcome 1, the whole buffer after it, which
 *                                                        is the store from here on where the outcome is 0, with the fresh session
 *   B   the whole store
 *   E   the number of C, 4
 *
 * A session is opened 1 (in what must come of a command, 00 or 01), LcsG, LcsA and last error.
 */
#include "element.h"
#include "harness.h"
#include "support.h"

enum {
    LARGEST_BUFFER = 20000, /* of a store or a factory buffer */
    LONGEST = 4096,         /* of a room or a command */
    LIST = 8,
    FACTORY_FILL = 0xEE
};

const char *const counted = "commands";

/* The stream's present store and session, and room for the next store. */
static uint8_t stores[2][LARGEST_BUFFER] __attribute__((aligned(4)));
static uint8_t *store = stores[0], *other = stores[1];
static size_t store_len;
static element_session session;

/* The command, and what must come of it. The buffers hold those of a list end to end. */
static uint8_t commands[LIST * LONGEST] __attribute__((aligned(4)));
static uint8_t rooms[LIST * LONGEST] __attribute__((aligned(4)));
static uint8_t rooms_due[LIST * LONGEST] __attribute__((aligned(4)));
static uint8_t outcomes_due[LIST];
static size_t sizes[LIST], spaces[LIST], listed, commands_len, rooms_len;
static uint8_t *command, *room, *room_due, outcome_due;
static size_t command_len, room_len;
static element_session session_due;
static uint8_t *store_due; /* the present store, or the other where the command changes it */

/* The state before the first command of the list. */
static uint8_t list_store[LARGEST_BUFFER] __attribute__((aligned(4)));
static element_session list_session;

/* What a call is lent, and what it returned. */
static uint8_t store_area[LARGEST_BUFFER + AROUND] __attribute__((aligned(4)));
static uint8_t rooms_area[LIST * LONGEST + AROUND] __attribute__((aligned(4)));
static uint8_t outcomes_area[LIST + AROUND] __attribute__((aligned(4)));
static lent store_lent, rooms_lent, outcomes_lent;
static const uint8_t *command_lent;
static element_session session_lent;
static uint8_t opened_lent, returned;
static const uint8_t untouched[LIST] = {0xFF, 0xFF, 0xFF, 0xFF, 0xFF, 0xFF, 0xFF, 0xFF};

/* A list for element_run, beside what is lent. */
static struct {
    size_t commands_len;
    const size_t *sizes;
    size_t sizes_count;
    const size_t *spaces;
    size_t spaces_count;
} list;

static uint32_t well_formed, malformed, changed, lists, made, not_made;
static cost execute_cost;

/* The entries, each on its own stack. */

static entry execute_entry, run_entry, check_entry, factory_entry, fresh_entry;

static void call_execute(void)
{
    execute_entry.pointer = machine_stack_pointer;
    cost_begin(&execute_cost);
    returned = element_execute(command_lent, command_len, store_lent.bytes, store_lent.length, &session_lent, rooms_lent.bytes, rooms_lent.length);
    cost_end(&execute_cost);
}

static void call_run(void)
{
    run_entry.pointer = machine_stack_pointer;
    returned = element_run(command_lent, list.commands_len, list.sizes, list.sizes_count, store_lent.bytes, store_lent.length, &session_lent,
        rooms_lent.bytes, rooms_lent.length, list.spaces, list.spaces_count, outcomes_lent.bytes, outcomes_lent.length);
}

static void call_check(void)
{
    check_entry.pointer = machine_stack_pointer;
    returned = element_check_store(store_lent.bytes, store_lent.length);
}

static void call_factory(void)
{
    factory_entry.pointer = machine_stack_pointer;
    returned = element_make_factory_store(store_lent.bytes, store_lent.length);
}

static void call_fresh(void)
{
    fresh_entry.pointer = machine_stack_pointer;
    session_lent = element_fresh_session();
}

enum { ENTRIES = 5 };
static entry *const entries[ENTRIES] = {&execute_entry, &run_entry, &check_entry, &factory_entry, &fresh_entry};

/* Lending and comparing. */

/* The state before a call; any value of opened but 0 is open. */
static void lend_state(const uint8_t *from, element_session before, const uint8_t *room_bytes, size_t length)
{
    static uint8_t value;
    store_lent = lend(store_area, from, store_len);
    rooms_lent = lend(rooms_area, room_bytes, length);
    session_lent = before;
    if (before.opened != 0) {
        value = value == 0xFF ? 1 : value + 1;
        session_lent.opened = value;
    }
    opened_lent = session_lent.opened;
}

/* The value of opened changes only where the application's state does, to 1 or 0. */
static void same_session(const char *part, element_session due)
{
    uint8_t opened = due.opened == 0 ? 0 : opened_lent == 0 ? 1 : opened_lent;
    same_number(part, "opened", session_lent.opened, opened);
    same_number(part, "LcsG", session_lent.lcsg, due.lcsg);
    same_number(part, "LcsA", session_lent.lcsa, due.lcsa);
    same_number(part, "the last error", session_lent.error, due.error);
}

static void same_state(const char *part, const uint8_t *store_bytes, element_session after, const uint8_t *room_bytes)
{
    same_session(part, after);
    same_lent(part, "room", rooms_lent, room_bytes);
    same_lent(part, "store", store_lent, store_bytes);
}

static void fresh_session(void)
{
    static const element_session due = {0, 0x01, 0x01, ELEMENT_NO_ERROR};
    memset(&session_lent, 0xFF, sizeof session_lent);
    call_entry(&fresh_entry);
    same_session(fresh_entry.name, due);
    session = due;
}

/* Reading. */

static element_session read_session(void)
{
    uint8_t bytes[4];
    read_bytes(bytes, sizeof bytes);
    return (element_session){bytes[0], bytes[1], bytes[2], bytes[3]};
}

static bool read_flag(void)
{
    uint32_t flag = read_number(1);
    if (flag > 1)
        stop("a flag that is neither 00 nor 01");
    return flag == 1;
}

/* The item's buffer takes the place of the store. */
static void replace_store(size_t length)
{
    uint8_t *before = store;
    store = other;
    other = before;
    store_len = length;
    listed = 0;
}

/* A command goes behind those of the list that is being collected. */
static void read_command(void)
{
    if (listed == 0)
        commands_len = rooms_len = 0;
    room = rooms + rooms_len;
    room_due = rooms_due + rooms_len;
    command = commands + commands_len;
    room_len = read_length(2, LONGEST);
    read_bytes(room, room_len);
    command_len = read_length(2, LONGEST);
    read_bytes(command, command_len);
    outcome_due = (uint8_t)read_number(1);
    session_due = read_session();
    if (session_due.opened > 1)
        stop("opened is neither 00 nor 01");
    read_bytes(room_due, room_len);
    store_due = store;
    if (!read_flag())
        return;
    changed++;
    read_bytes(other, store_len);
    store_due = other;
    if (memcmp(store, other, store_len) == 0)
        stop("a store that is said to have changed has not");
}

/* Items. */

static void try_execute(void)
{
    lend_state(store, session, room, room_len);
    command_lent = lend_constant(command, command_len);
    call_entry(&execute_entry);
    same_number(execute_entry.name, "outcome", returned, outcome_due);
    same_state(execute_entry.name, store_due, session_due, room_due);
}

static void try_run(void)
{
    static const char part[] = "element_run, a list of one";
    lend_state(store, session, room, room_len);
    outcomes_lent = lend(outcomes_area, untouched, 1);
    command_lent = lend_constant(command, command_len);
    list.commands_len = command_len;
    list.sizes = &command_len;
    list.spaces = &room_len;
    list.sizes_count = list.spaces_count = 1;
    call_entry(&run_entry);
    same_number(part, "what it returns", returned, ELEMENT_ANSWERED);
    same_lent(part, "outcome", outcomes_lent, &outcome_due);
    same_state(part, store_due, session_due, room_due);
}

/* Lends the eight commands as a list. */
static void lend_list(void)
{
    lend_state(list_store, list_session, rooms, rooms_len);
    outcomes_lent = lend(outcomes_area, untouched, LIST);
    command_lent = lend_constant(commands, commands_len);
    list.commands_len = commands_len;
    list.sizes = sizes;
    list.spaces = spaces;
    list.sizes_count = list.spaces_count = LIST;
}

/* The store and session that are due are those after the last of the eight. */
static void try_list(void)
{
    static const char part[] = "element_run, a list of eight";
    lend_list();
    call_entry(&run_entry);
    lists++;
    same_number(part, "what it returns", returned, ELEMENT_ANSWERED);
    same_lent(part, "outcomes", outcomes_lent, outcomes_due);
    same_state(part, store_due, session_due, rooms_due);
}

/* The eight as a list that does not fit, in one of six ways: nothing may change. */
static void try_misfit(void)
{
    static const char part[] = "element_run, a list that does not fit";
    size_t *last = lists % 2 == 0 ? &sizes[LIST - 1] : &spaces[LIST - 1];
    size_t whole = *last;
    lend_list();
    if (lists % 6 < 2)
        *(lists % 2 == 0 ? &list.sizes_count : &list.spaces_count) = LIST - 1;
    else
        *last = lists % 6 < 4 ? whole + 1 : SIZE_MAX;
    call_entry(&run_entry);
    *last = whole;
    same_number(part, "what it returns", returned, ELEMENT_WRONG_SIZE);
    same_lent(part, "outcomes", outcomes_lent, untouched);
    same_state(part, list_store, list_session, rooms);
}

/* The command that has been compared stays in the list that is being collected. */
static void keep_command(void)
{
    if (listed == 0) {
        memcpy(list_store, store, store_len);
        list_session = session;
    }
    sizes[listed] = command_len;
    spaces[listed] = room_len;
    outcomes_due[listed] = outcome_due;
    commands_len += command_len;
    rooms_len += room_len;
    if (++listed == LIST) {
        try_list();
        try_misfit();
        listed = 0;
    }
}

static void take_command(void)
{
    read_command();
    try_execute();
    try_run();
    keep_command();
    session = session_due;
    if (store_due == other) {
        other = store;
        store = store_due;
    }
    count_one();
}

static void take_store(void)
{
    size_t length = read_length(4, LARGEST_BUFFER);
    read_bytes(other, length);
    replace_store(length);
    session = read_session();
    bool due = read_flag();
    store_lent = lend(store_area, store, store_len);
    call_entry(&check_entry);
    same_number(check_entry.name, "what it returns", returned, due);
    same_lent(check_entry.name, "store", store_lent, store);
    well_formed += due;
    malformed += !due;
}

static void take_factory(void)
{
    size_t length = read_length(4, LARGEST_BUFFER);
    memset(other, FACTORY_FILL, length);
    store_lent = lend(store_area, other, length);
    uint8_t due = (uint8_t)read_number(1);
    read_bytes(other, length);
    call_entry(&factory_entry);
    same_number(factory_entry.name, "outcome", returned, due);
    same_lent(factory_entry.name, "buffer", store_lent, other);
    made += due == ELEMENT_ANSWERED;
    not_made += due != ELEMENT_ANSWERED;
    if (due != ELEMENT_ANSWERED)
        return;
    replace_store(length);
    fresh_session();
}

/* The library's store has been compared after each command: this is whether the stream holds together. */
static void take_bytes(void)
{
    read_bytes(other, store_len);
    if (memcmp(store, other, store_len) != 0)
        stop("a store that is shown is not the present one");
}

bool take_item(uint8_t letter)
{
    switch (letter) {
    case 'S':
        take_store();
        return true;
    case 'C':
        take_command();
        return true;
    case 'F':
        take_factory();
        return true;
    case 'B':
        take_bytes();
        return true;
    default:
        return false;
    }
}

void begin(void)
{
    static uint32_t stacks[ENTRIES][STACK_WORDS] __attribute__((aligned(16)));
    prepare(&execute_entry, "element_execute", call_execute, stacks[0]);
    prepare(&run_entry, "element_run", call_run, stacks[1]);
    prepare(&check_entry, "element_check_store", call_check, stacks[2]);
    prepare(&factory_entry, "element_make_factory_store", call_factory, stacks[3]);
    prepare(&fresh_entry, "element_fresh_session", call_fresh, stacks[4]);
    fresh_session();
}

void show_figures(void)
{
    say("items: %u stores well formed, %u malformed, %u commands that changed the store, %u lists of eight and as many that do not fit, %u factory stores"
        " made, %u refused",
        (unsigned)well_formed, (unsigned)malformed, (unsigned)changed, (unsigned)lists, (unsigned)made, (unsigned)not_made);
    say("instructions: element_execute %u a command, most %u", (unsigned)(execute_cost.sum / execute_cost.calls), (unsigned)execute_cost.most);
    for (size_t i = 0; i < ENTRIES; i++)
        show_stack(entries[i]);
}
