/* The boards mps2-an385 and mps2-an386: code where the processor starts, the rest in their large memory. */
ENTRY(reset)
MEMORY {
    code (rx) : ORIGIN = 0, LENGTH = 4M
    data (rw) : ORIGIN = 0x21000000, LENGTH = 16M
}
SECTIONS {
    .text : { KEEP(*(.vectors)) *(.text .text.*) *(.rodata .rodata.*) . = ALIGN(8); } >code
    .ARM.extab : { *(.ARM.extab*) } >code
    .ARM.exidx : { __exidx_start = .; *(.ARM.exidx*) __exidx_end = .; . = ALIGN(8); } >code
    .init_array : {
        __preinit_array_start = .; __preinit_array_end = .;
        __init_array_start = .; KEEP(*(.init_array*)) __init_array_end = .;
        __fini_array_start = .; KEEP(*(.fini_array*)) __fini_array_end = .;
        . = ALIGN(8);
    } >code
    .data : { data_begin = .; *(.data .data.*) . = ALIGN(8); data_end = .; } >data AT>code
    data_from = LOADADDR(.data);
    .bss (NOLOAD) : { bss_begin = .; *(.bss .bss.*) *(COMMON) . = ALIGN(8); bss_end = .; } >data
    end = .;
    stack_top = ORIGIN(data) + LENGTH(data);
}
