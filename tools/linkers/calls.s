# Relocations in .text, each at the start of its slot: type 10 (R_X86_64_32) for a call of a
# function by its symbol, type 1 (R_X86_64_64) for an address in the two halves of a load.
    .text
    .globl entrypoint
    .type entrypoint, @function
entrypoint:
    .reloc ., R_X86_64_64, message
    .quad 0x0000000000000118    # lddw r1, message
    .quad 0
    .reloc ., R_X86_64_32, damp
    .quad 0xffffffff00001085    # call damp
    .quad 0x95                  # exit
    .size entrypoint, . - entrypoint

    .globl damp
    .type damp, @function
damp:
    .quad 0x95
    .size damp, . - damp

    .section .rodata, "a", @progbits
    .globl message
    .type message, @object
message:
    .ascii "sway\0\0\0\0"
    .size message, . - message
