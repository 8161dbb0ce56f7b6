/* Sections of a Cortex-M image. QEMU loads .data where it stands. */
SECTIONS {
    .text : { KEEP(*(.vectors)) *(.text*) *(.rodata*) } >code
    .ARM.exidx : { *(.ARM.exidx*) } >code
    .data : { *(.data*) } >data
    .bss (NOLOAD) : ALIGN(16) { bss_start = .; *(.bss*) *(COMMON) . = ALIGN(4); bss_end = .; } >data
    stack_top = ORIGIN(data) + LENGTH(data);
}
