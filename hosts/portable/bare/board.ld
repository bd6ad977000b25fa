/* Code and read-only data from address 0 on, as QEMU's boards mps2-an385 and microbit have memory there; all else from
   0x20000000 on. QEMU loads each section where it belongs, so nothing is copied at the start. */
ENTRY(_start)
MEMORY
{
    CODE : ORIGIN = 0, LENGTH = 256K
    DATA : ORIGIN = 0x20000000, LENGTH = 4M
}
SECTIONS
{
    .text : { KEEP(*(.vectors)) *(.text*) KEEP(*(.init)) KEEP(*(.fini)) *(.rodata*) } > CODE
    .ARM.extab : { *(.ARM.extab*) } > CODE
    .ARM.exidx : { __exidx_start = .; *(.ARM.exidx*) __exidx_end = .; } > CODE
    .init_array :
    {
        __preinit_array_start = .;
        KEEP(*(.preinit_array))
        __preinit_array_end = .;
        __init_array_start = .;
        KEEP(*(SORT(.init_array.*) .init_array))
        __init_array_end = .;
        __fini_array_start = .;
        KEEP(*(.fini_array))
        __fini_array_end = .;
    } > CODE
    .data : { *(.data*) } > DATA
    .bss : { __bss_start__ = .; *(.bss*) *(COMMON) __bss_end__ = .; } > DATA
    /* newlib's heap begins here, and its stack ends there. */
    end = .;
    __end__ = .;
    __stack = ORIGIN(DATA) + LENGTH(DATA);
}
