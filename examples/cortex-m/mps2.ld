/* The memory of the board mps2-an386, as qemu-system-arm has it. */
MEMORY {
    CODE (rx) : ORIGIN = 0x00000000, LENGTH = 4M
    DATA (rwx) : ORIGIN = 0x20000000, LENGTH = 4M
}
stack_top = ORIGIN(DATA) + LENGTH(DATA);
SECTIONS {
    .text : { KEEP(*(.vectors)) *(.text*) *(.rodata*) *(.data.rel.ro*) KEEP(*(.init)) KEEP(*(.fini)) . = ALIGN(8); } > CODE
    .ARM.exidx : { __exidx_start = .; *(.ARM.exidx*) __exidx_end = .; } > CODE
    .preinit_array : { __preinit_array_start = .; KEEP(*(.preinit_array*)) __preinit_array_end = .; } > CODE
    .init_array : { __init_array_start = .; KEEP(*(.init_array*)) __init_array_end = .; } > CODE
    .fini_array : { __fini_array_start = .; KEEP(*(.fini_array*)) __fini_array_end = .; } > CODE
    .data : { *(.data*) . = ALIGN(8); } > DATA
    .bss : { __bss_start__ = .; *(.bss*) *(COMMON) . = ALIGN(8); __bss_end__ = .; } > DATA
    end = .;
    __end__ = .;
}
