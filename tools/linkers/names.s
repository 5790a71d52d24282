# Eight functions that other programs may ask for by their names; they call nothing.
    .macro function name
    .globl \name
    .type \name, @function
\name:
    .quad 0x95                  # exit
    .size \name, . - \name
    .endm

    .text
    .balign 8
    function entrypoint
    function start_lift
    function stop_lift
    function hoist
    function lower
    function slew
    function damp
    function brake
