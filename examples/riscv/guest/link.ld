/* A guest runs from the start of its segment, which `run` gives as SEGMENT: 0x000003000000 in the newer edition, 0x03XXXX000000 in the
 * older, where XXXX is its account. */
OUTPUT_ARCH(riscv)
ENTRY(_start)

MEMORY { program (rx) : ORIGIN = SEGMENT, LENGTH = 16M }

SECTIONS {
    .text : { *(.text.start) *(.text.probe) *(.text .text.*) } > program
    .rodata : { *(.rodata .rodata.* .srodata .srodata.*) } > program
    .data : { *(.data .data.* .sdata .sdata.*) } > program
    .bss : { *(.bss .bss.* .sbss .sbss.* COMMON) } > program
    /DISCARD/ : { *(.comment) *(.note .note.*) *(.eh_frame) *(.riscv.attributes) }
}

ASSERT(SIZEOF(.data) + SIZEOF(.bss) == 0, "a program is never written: keep variables on the stack or in the heap")
