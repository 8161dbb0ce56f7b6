/* The machine virt of RISC-V: memory from 0x80000000 on, where it starts; 1 MB for code, then 4 MB for data and, at their end, the stack. */
ENTRY(start)
MEMORY {
    code : ORIGIN = 0x80000000, LENGTH = 1M
    data : ORIGIN = 0x80100000, LENGTH = 4M
}
SECTIONS {
    .text : { KEEP(*(.start)) *(.text*) *(.rodata*) *(.srodata*) } >code
    .data : ALIGN(16) { *(.data*) *(.sdata*) } >data
    .bss (NOLOAD) : ALIGN(16) { bss_start = .; *(.sbss*) *(.bss*) *(COMMON) . = ALIGN(4); bss_end = .; } >data
    stack_top = ORIGIN(data) + LENGTH(data);
}
