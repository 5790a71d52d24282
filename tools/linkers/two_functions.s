# Two functions and a local call. A slot has 8 bytes: opcode, registers, 16-bit offset, immediate.
    .text
    .globl entrypoint
    .type entrypoint, @function
entrypoint:
    .byte 0x85, 0x10, 0, 0      # call damp: its slot is 1 past the next
    .long 1
    .quad 0x95                  # exit
    .size entrypoint, . - entrypoint

    .type damp, @function
damp:
    .quad 0x95
    .size damp, . - damp
