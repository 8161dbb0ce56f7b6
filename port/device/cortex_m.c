/*
 * Arm Cortex-M under QEMU: vectors, semihosting by bkpt, SysTick as the clock. Memory and the clock's rate are those of the linker script.
 *
 * QEMU runs with -icount shift=6: an instruction is 64 nanoseconds of the machine's time, and SysTick counts that down in 24 bits.
 */
#include "machine.h"
#include "semihosting.h"

enum {
    INSTRUCTION_NANOSECONDS = 64,
    CLOCK_MASK = 0xFFFFFF,
    ENABLED_BY_PROCESSOR_CLOCK = 5,
    TRAP_UNALIGNED = 8
};

/* Registers of the system control space. */
#define SYSTICK_CONTROL (*(volatile uint32_t *)0xE000E010)
#define SYSTICK_RELOAD (*(volatile uint32_t *)0xE000E014)
#define SYSTICK_VALUE (*(volatile uint32_t *)0xE000E018)
#define CONFIGURATION (*(volatile uint32_t *)0xE000ED14)

/* Of the linker script: addresses, and a number as one. */
extern uint32_t stack_top[], bss_start[], bss_end[];
extern const char tick_nanoseconds[];

void reset(void);
void fault(void);

uint32_t semihost(uint32_t operation, const void *block)
{
    register uint32_t r0 __asm__("r0") = operation;
    register const void *r1 __asm__("r1") = block;
    __asm__ volatile("bkpt 0xAB" : "+r"(r0) : "r"(r1) : "memory");
    return r0;
}

uint32_t machine_clock(void)
{
    return SYSTICK_VALUE;
}

uint32_t machine_instructions(uint32_t then)
{
    return ((then - SYSTICK_VALUE) & CLOCK_MASK) * (uint32_t)(uintptr_t)tick_nanoseconds / INSTRUCTION_NANOSECONDS;
}

/* Four instructions a turn. */
void machine_spend(uint32_t instructions)
{
    uint32_t turns = instructions / 4;
    __asm__ volatile(".syntax unified\n1: nop\n nop\n subs %0, #1\n bne 1b" : "+l"(turns) : : "cc");
}

__attribute__((naked)) void machine_call(void (*function)(void), void *top)
{
    (void)function;
    (void)top;
    __asm__ volatile("push {r4, lr}\n mov r4, sp\n mov sp, r1\n blx r0\n mov sp, r4\n pop {r4, pc}");
}

void reset(void)
{
    for (uint32_t *at = bss_start; at < bss_end; at++)
        *at = 0;
#ifndef __ARM_FEATURE_UNALIGNED
    CONFIGURATION |= TRAP_UNALIGNED; /* code for a Cortex-M0+, which has no such accesses */
#endif
    SYSTICK_RELOAD = CLOCK_MASK;
    SYSTICK_VALUE = 0;
    SYSTICK_CONTROL = ENABLED_BY_PROCESSOR_CLOCK;
    machine_leave(harness());
}

void fault(void)
{
    machine_print("a fault of the processor\n");
    machine_leave(3);
}

typedef union vector {
    uint32_t *top;
    void (*handler)(void);
} vector;

__attribute__((section(".vectors"), used)) static const vector vectors[] = {{.top = stack_top}, {.handler = reset}, {.handler = fault}, {.handler = fault},
    {.handler = fault}, {.handler = fault}, {.handler = fault}, {.handler = fault}};
