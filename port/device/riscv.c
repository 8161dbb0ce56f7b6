/*
 * RISC-V under QEMU, machine virt: the start, semihosting by its sequence about ebreak, the count of retired instructions as the clock.
 *
 * QEMU runs with -icount shift=0: an instruction is a nanosecond of the machine's time, and the count is that of the instructions.
 */
#include "machine.h"
#include "semihosting.h"

/* Of the linker script. */
extern uint32_t bss_start[], bss_end[];

void start(void);
void run(void);
void trap(void);

__attribute__((naked, aligned(16))) uint32_t semihost(uint32_t operation, const void *block)
{
    (void)operation;
    (void)block;
    __asm__ volatile(".option push\n.option norvc\n slli zero, zero, 0x1f\n ebreak\n srai zero, zero, 7\n.option pop\n ret");
}

uint32_t machine_clock(void)
{
    uint32_t count;
    __asm__ volatile("csrr %0, minstret" : "=r"(count));
    return count;
}

uint32_t machine_instructions(uint32_t then)
{
    return machine_clock() - then;
}

/* Four instructions a turn. */
void machine_spend(uint32_t instructions)
{
    uint32_t turns = instructions / 4;
    __asm__ volatile("1: nop\n nop\n addi %0, %0, -1\n bnez %0, 1b" : "+r"(turns));
}

__attribute__((naked)) void machine_call(void (*function)(void), void *top)
{
    (void)function;
    (void)top;
    __asm__ volatile("addi sp, sp, -16\n sw ra, 12(sp)\n sw s0, 8(sp)\n mv s0, sp\n mv sp, a1\n jalr a0\n"
                     " mv sp, s0\n lw ra, 12(sp)\n lw s0, 8(sp)\n addi sp, sp, 16\n ret");
}

__attribute__((aligned(4))) void trap(void)
{
    machine_print("a fault of the processor\n");
    machine_leave(3);
}

void run(void)
{
    for (uint32_t *at = bss_start; at < bss_end; at++)
        *at = 0;
    machine_leave(harness());
}

/* The first instruction of the image. */
__attribute__((naked, section(".start"))) void start(void)
{
    __asm__ volatile("la sp, stack_top\n la t0, trap\n csrw mtvec, t0\n call run");
}
