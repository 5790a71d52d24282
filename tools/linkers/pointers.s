# Pointers in .data.rel.ro. The linker makes type 8 (R_X86_64_RELATIVE) of the first, to a local
# symbol, and type 1 (R_X86_64_64) of the second, to one that others may define.
    .text
    .globl entrypoint
    .type entrypoint, @function
entrypoint:
    .quad 0x95                  # exit
    .size entrypoint, . - entrypoint

    .section .rodata, "a", @progbits
message:
    .ascii "sway\0\0\0\0"

    .section .data.rel.ro, "aw", @progbits
    .balign 8
    .quad message
    .quad entrypoint
