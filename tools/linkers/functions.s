# Five functions: local calls, forwards, backwards and of one target more than once; a call by
# symbol (type 10); an address (type 1); and a label that nothing calls.
    .text
    .globl entrypoint
    .type entrypoint, @function
entrypoint:
    .reloc ., R_X86_64_64, message
    .quad 0x0000000000000118    # 0: lddw r1, message
    .quad 0
    .quad 0x0000000300001085    # 2: call damp, 3 past the next
    .reloc ., R_X86_64_32, hoist
    .quad 0xffffffff00001085    # 3: call hoist
    .quad 0x0000000100001085    # 4: call damp
    .quad 0x95                  # 5: exit
    .size entrypoint, . - entrypoint

    .type damp, @function
damp:
    .quad 0x0000000100001085    # 6: call limit
    .quad 0x95
    .size damp, . - damp

    .type limit, @function
limit:
    .quad 0x95                  # 8
    .size limit, . - limit

    .globl hoist
    .type hoist, @function
hoist:
    .quad 0xfffffffc00001085    # 9: call damp, 4 before the next
    .quad 0x95
    .size hoist, . - hoist

    .type brake, @function
brake:
    .quad 0x95                  # 11
    .size brake, . - brake

    .section .rodata, "a", @progbits
    .globl message
    .type message, @object
message:
    .ascii "sway\0\0\0\0"
    .size message, . - message
