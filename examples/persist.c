/*
 * The element kept over a reset (persist.h says how).
 *
 *   gcc -std=c99 -O2 -c -Iinclude examples/persist.c
 */
#include "persist.h"

#define MARKER UINT32_C(0x5AC33CA5)
#define SUM_START UINT32_C(0xFFFFFFFF)

enum { NO_COPY = PERSIST_COPIES };

static size_t copy_at(unsigned copy)
{
    return (size_t)copy * PERSIST_PAGES * FLASH_PAGE;
}

/* CRC-32, a byte more, in two halves. */
static uint32_t summed(uint32_t sum, uint8_t byte)
{
    static const uint32_t remainders[16] = {
        0x00000000, 0x1DB71064, 0x3B6E20C8, 0x26D930AC, 0x76DC4190, 0x6B6B51F4, 0x4DB26158, 0x5005713C,
        0xEDB88320, 0xF00F9344, 0xD6D6A3E8, 0xCB61B38C, 0x9B64C2B0, 0x86D3D2D4, 0xA00AE278, 0xBDBDF21C
    };
    sum ^= byte;
    sum = sum >> 4 ^ remainders[sum & 0x0F];
    return sum >> 4 ^ remainders[sum & 0x0F];
}

static uint32_t number_at(size_t at)
{
    uint32_t number = 0;
    for (unsigned i = 0; i < 4; i++)
        number |= (uint32_t)flash_read(at + i) << 8 * i;
    return number;
}

/* Whether the copy was written to its end, and has not changed since. */
static bool is_whole(unsigned copy)
{
    size_t start = copy_at(copy);
    uint32_t sum = SUM_START;
    if (number_at(start + PERSIST_MARKER) != MARKER)
        return false;
    for (size_t i = 0; i < PERSIST_SUM; i++)
        sum = summed(sum, flash_read(start + i));
    return number_at(start + PERSIST_SUM) == sum;
}

/* The flash wears out long before the sequence number ends. */
static unsigned newest_copy(void)
{
    bool first = is_whole(0);
    bool second = is_whole(1);
    if (first && second)
        return number_at(copy_at(0)) < number_at(copy_at(1)) ? 1 : 0;
    return first ? 0 : second ? 1 : NO_COPY;
}

/* Where the next byte goes, and the sum of those before it. */
typedef struct writer {
    size_t at;
    uint32_t sum;
} writer;

static void put(writer *w, uint8_t byte)
{
    flash_write(w->at++, byte);
    w->sum = summed(w->sum, byte);
}

static void put_number(writer *w, uint32_t number)
{
    for (unsigned i = 0; i < 4; i++)
        put(w, (uint8_t)(number >> 8 * i));
}

void persist_save(const uint8_t *store, const element_session *session)
{
    unsigned newest = newest_copy();
    unsigned copy = newest == 0 ? 1 : 0;
    uint32_t sequence = newest == NO_COPY ? 1 : number_at(copy_at(newest)) + 1;
    writer w = {copy_at(copy), SUM_START};
    for (size_t i = 0; i < PERSIST_PAGES; i++)
        flash_erase(w.at / FLASH_PAGE + i);
    put_number(&w, sequence);
    put(&w, session->lcsg);
    put(&w, session->lcsa);
    for (size_t i = 0; i < PERSIST_STORE_SIZE; i++)
        put(&w, store[i]);
    put_number(&w, w.sum);
    put_number(&w, MARKER);
}

/* Whether the newest copy is of this state. */
static bool is_kept(const uint8_t *store, const element_session *session)
{
    unsigned copy = newest_copy();
    if (copy == NO_COPY)
        return false;
    size_t start = copy_at(copy);
    if (flash_read(start + PERSIST_LCSG) != session->lcsg || flash_read(start + PERSIST_LCSA) != session->lcsa)
        return false;
    for (size_t i = 0; i < PERSIST_STORE_SIZE; i++)
        if (flash_read(start + PERSIST_STORE + i) != store[i])
            return false;
    return true;
}

void persist_keep(const uint8_t *store, const element_session *session)
{
    if (!is_kept(store, session))
        persist_save(store, session);
}

bool persist_load(uint8_t *store, element_session *session)
{
    unsigned copy = newest_copy();
    if (copy == NO_COPY)
        return false;
    size_t start = copy_at(copy);
    for (size_t i = 0; i < PERSIST_STORE_SIZE; i++)
        store[i] = flash_read(start + PERSIST_STORE + i);
    *session = element_fresh_session();
    session->lcsg = flash_read(start + PERSIST_LCSG);
    session->lcsa = flash_read(start + PERSIST_LCSA);
    return element_check_store(store, PERSIST_STORE_SIZE);
}
