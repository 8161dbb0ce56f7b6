/*
 * What the harness needs of a machine: the stream of cases, a place to print, a clock that counts instructions, and a switch of stacks.
 * cortex_m.c and riscv.c have it for emulated controllers.
 */
#ifndef MACHINE_H
#define MACHINE_H

#include <stdbool.h>
#include <stddef.h>
#include <stdint.h>

/* The register that holds the stack pointer; Arm and RISC-V have the same name for it. */
#ifndef MACHINE_STACK_POINTER
#define MACHINE_STACK_POINTER "sp"
#endif
__extension__ register uint8_t *machine_stack_pointer __asm__(MACHINE_STACK_POINTER);

/* The next bytes of the stream; false where it ends before the last of them. */
bool machine_read(void *into, size_t length);

void machine_print(const char *text);

/* The clock, and the instructions since it showed `then`: right for at least 10,000,000. */
uint32_t machine_clock(void);
uint32_t machine_instructions(uint32_t then);

/* Runs a loop of exactly so many instructions, a multiple of 4. */
void machine_spend(uint32_t instructions);

/* Calls the function on another stack, which ends at `top`, a multiple of 16. */
void machine_call(void (*function)(void), void *top);

/* Ends the run. */
void machine_leave(int status) __attribute__((noreturn));

/* The harness: the machine calls it once, and leaves with what it returns. */
int harness(void);

#endif
