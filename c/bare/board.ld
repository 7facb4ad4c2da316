/* The loader puts data where it belongs, so nothing is copied at the start. */
ENTRY(begin)
SECTIONS
{
    .text : { KEEP(*(.vectors)) *(.text*) *(.rodata*) } >code
    .ARM.exidx : { *(.ARM.exidx*) } >code
    .data : { *(.data*) } >data
    .bss : { *(.bss*) *(COMMON) } >data
    stack_top = ORIGIN(data) + LENGTH(data);
}
