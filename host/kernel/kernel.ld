/* One segment from 1 MB on, and the note by which the emulator enters. */
ENTRY(start)
PHDRS { all PT_LOAD FLAGS(7); note PT_NOTE FLAGS(4); }
SECTIONS {
    . = 0x100000;
    .note : { *(.note.pvh) } :all :note
    .text : { *(.text .text.*) } :all
    .rodata : { *(.rodata .rodata.*) } :all
    .data : { *(.data .data.*) } :all
    .bss : { *(.bss .bss.* COMMON) } :all
    /DISCARD/ : { *(.eh_frame) *(.comment) *(.note.GNU-stack) *(.note.gnu.property) }
}
