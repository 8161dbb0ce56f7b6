/*
 * The files and the end of a run by semihosting, which QEMU has alike for Arm and RISC-V: an operation, and a block of words with what it needs.
 * The machine has the call itself.
 */
#ifndef SEMIHOSTING_H
#define SEMIHOSTING_H

#include <stdint.h>

/* Returns what the host answers. */
uint32_t semihost(uint32_t operation, const void *block);

#endif
