/* The machine mps2-an505, in its secure addresses: 4 MB at 0x10000000 for code, 2 MB at 0x38000000 for data and, at their end, the stack. 20 MHz. */
ENTRY(reset)
MEMORY {
    code : ORIGIN = 0x10000000, LENGTH = 4M
    data : ORIGIN = 0x38000000, LENGTH = 2M
}
tick_nanoseconds = 50;
INCLUDE cortex_m.ld
