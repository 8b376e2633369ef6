# sum: gives the sum of its two arguments, modulo 2^64.
#
# The arguments are in a0 to a7, and the result is what a0 holds at the return. To change the example,
# change the instructions here, and assemble it (README.md shows how). All of RV64IM is run; every other
# word ends the call with `trap illegal`.

        .text
        .globl  sum
        .type   sum, @function
sum:
        add     a0, a0, a1      # 0x00b50533
        ret                     # 0x00008067, which is jalr x0, 0(ra)
        .size   sum, .-sum
