/*
 * The element kept over a reset, in flash: two copies by turns, each with a sequence number, a check sum, and a marker that is written last.
 *
 * Link examples/persist.c, libfirmware.a and a driver of the flash (the three functions below). tests/persist.c cuts the power at every byte.
 *
 * After each command that is done call persist_keep, and send the response after it. A get of data may change the store too, by the counters that
 * its read expression uses up: a host that saves after sets alone would forget these at a reset, and grant them again.
 */
#ifndef PERSIST_H
#define PERSIST_H

#include "element.h"

/* The flash as a driver gives it: pages are erased to FF, a byte is written once after that. Each returns when it is done. */
enum { FLASH_PAGE = 2048, FLASH_ERASED = 0xFF };
void flash_erase(size_t page);
void flash_write(size_t at, uint8_t byte);
uint8_t flash_read(size_t at);

/* The bytes of the host's store: those of the factory store, or of another one, as in -DPERSIST_STORE_SIZE=424. */
#ifndef PERSIST_STORE_SIZE
#define PERSIST_STORE_SIZE ELEMENT_FACTORY_STORE_SIZE
#endif

/* A copy: sequence number 4, LcsG 1, LcsA 1, the store, check sum 4, marker 4; numbers least significant byte first. */
enum {
    PERSIST_LCSG = 4,
    PERSIST_LCSA = 5,
    PERSIST_STORE = 6,
    PERSIST_SUM = PERSIST_STORE + PERSIST_STORE_SIZE,
    PERSIST_MARKER = PERSIST_SUM + 4,
    PERSIST_COPY = PERSIST_MARKER + 4,
    PERSIST_PAGES = (PERSIST_COPY + FLASH_PAGE - 1) / FLASH_PAGE, /* of one copy */
    PERSIST_COPIES = 2
};

/* Writes the store, LcsG and LcsA over the older copy. Send a response only after this has returned. */
void persist_save(const uint8_t *store, const element_session *session);

/*
 * After each command that is done: saves if the store, LcsG or LcsA is not as the newest copy has it; most gets change nothing, and then nothing is
 * written. Send a response only after this has returned.
 */
void persist_keep(const uint8_t *store, const element_session *session);

/*
 * At start-up: the newest whole copy. The session is then closed, with no error, and with the LcsG and LcsA that were saved.
 * False if there is none, or if its store is malformed: on a device in service that is a fault, and no reason to make a factory store.
 */
bool persist_load(uint8_t *store, element_session *session);

#endif
