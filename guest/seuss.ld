/*
 * Places a program in memory: code that runs, constants that are read, data that is read and
 * written. A page has the permissions of all segments that have a byte on it, so each segment
 * begins on a page of its own.
 */
ENTRY(_start)

PHDRS
{
    code PT_LOAD FLAGS(5);
    constants PT_LOAD FLAGS(4);
    data PT_LOAD FLAGS(6);
    thread PT_TLS FLAGS(4);
}

SECTIONS
{
    . = 0x10000;
    .text : {
        KEEP(*(.text.seuss_start))
        *(.text.seuss_serve)
        *(.text .text.*)
    } :code

    . = ALIGN(4096);
    .rodata : { *(.rodata .rodata.* .srodata .srodata.*) } :constants

    . = ALIGN(4096);
    /* There is one thread, so its data stands where tp points from the start on. */
    .tdata : { seuss_thread_data = .; *(.tdata .tdata.*) } :data :thread
    .tbss : { *(.tbss .tbss.*) } :data :thread
    .data : { . = . + SIZEOF(.tbss); *(.data .data.* .sdata .sdata.*) } :data
    .bss : { *(.sbss .sbss.* .bss .bss.* COMMON) } :data

    .init_array : { KEEP(*(.preinit_array* .init_array* .ctors*)) } :data
    ASSERT(SIZEOF(.init_array) == 0, "a constructor, which nothing calls")
    /DISCARD/ : { *(.eh_frame .eh_frame_hdr .comment .note .note.*) }
}
