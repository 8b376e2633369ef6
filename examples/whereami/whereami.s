# whereami: gives the address of its own first instruction.
#
# It takes no arguments, and the result is what a0 holds at the return. To change the example, change
# the instructions here, and assemble it (README.md shows how). All of RV64IM is run; every other word
# ends the call with `trap illegal`.

        .text
        .globl  whereami
        .type   whereami, @function
whereami:
        auipc   a0, 0           # 0x00000517: a0 is the address of this instruction, plus 0
        ret                     # 0x00008067, which is jalr x0, 0(ra): goes back to the caller
        .size   whereami, .-whereami
