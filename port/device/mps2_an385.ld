/* The machine mps2-an385: 4 MB at 0 for code, 4 MB at 0x20000000 for data and, at their end, the stack. A clock of 25 MHz. */
ENTRY(reset)
MEMORY {
    code : ORIGIN = 0x00000000, LENGTH = 4M
    data : ORIGIN = 0x20000000, LENGTH = 4M
}
tick_nanoseconds = 40;
INCLUDE cortex_m.ld
