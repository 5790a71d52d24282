/* For GNU ld: every section at the address of its place in the file, as version 1 demands. */
SECTIONS
{
    . = SIZEOF_HEADERS;
    .text : { *(.text) }
    .rodata : { *(.rodata) }
    .data.rel.ro : { *(.data.rel.ro) }
    .hash : { *(.hash) }
    .dynsym : { *(.dynsym) }
    .dynstr : { *(.dynstr) }
    .rela.dyn : { *(.rela.*) }
    .dynamic : { *(.dynamic) }
    /DISCARD/ : { *(.eh_frame) *(.data) *(.bss) }
}
