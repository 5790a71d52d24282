# Relocations that bring an addend, as GNU ld writes them: an address of a symbol that others may
# define plus 4 (type 1), in the text and in .data.rel.ro, there also one of a local symbol (type 8);
# and a call of a function by its symbol (type 10). Those in the text stand at the start of their slot.
    .text
    .globl entrypoint
    .type entrypoint, @function
entrypoint:
    .reloc ., R_X86_64_64, message + 4
    .quad 0x0000000000000118    # lddw r1, message + 4
    .quad 0
    .reloc ., R_X86_64_32, damp
    .quad 0xffffffff00001085    # call damp
    .quad 0x95                  # exit
    .size entrypoint, . - entrypoint

    .globl damp
    .type damp, @function
damp:
    .quad 0x95
    .size damp, . - damp

    .section .rodata, "a", @progbits
    .globl message
    .type message, @object
message:
    .ascii "anti-sway\0\0\0\0\0\0\0"
    .size message, . - message
table:
    .quad 3

    .section .data.rel.ro, "aw", @progbits
    .balign 8
    .quad message + 4
    .quad table
