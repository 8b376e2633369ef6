# sums: sums alone, but for one branch a round. A round has 100 instructions, and what stands around the
# rounds has 100 as well, so a call with n makes 100 * (n + 1) steps.

        .text
        .globl  sums
sums:
        li      a1, 1
        li      a2, 2
        .rept   48
        add     a1, a1, a2
        addi    a2, a2, 3
        .endr
1:      .rept   49
        add     a1, a1, a2
        addi    a2, a2, 3
        .endr
        addi    a0, a0, -1
        bnez    a0, 1b
        add     a0, a1, a2
        ret
