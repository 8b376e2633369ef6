# memory: loads and stores of 1 and 8 bytes on the stack, 14 of the 20 instructions of a round. What stands
# around the rounds has 20 instructions as well, so a call with n makes 20 * (n + 1) steps.

        .text
        .globl  memory
memory:
        addi    sp, sp, -1024
        lui     a1, 0x12345
        .rept   15
        addi    a1, a1, 0x679
        .endr
1:      andi    a3, a0, 0x1f8           # one of 64 words of the stack
        add     a3, sp, a3
        sd      a1, 0(a3)
        ld      a2, 8(a3)
        sb      a0, 16(a3)
        lbu     a4, 0(a3)
        sd      a2, 256(a3)
        lb      a5, 256(a3)
        sb      a4, 511(a3)
        ld      a6, 504(a3)
        sd      a6, 512(a3)
        lbu     a7, 515(a3)
        sb      a7, 3(a3)
        ld      t0, 0(a3)
        sb      a5, 24(a3)
        lb      t1, 264(a3)
        sub     a1, t0, a6
        addi    a1, a1, 0x679
        addi    a0, a0, -1
        bnez    a0, 1b
        mv      a0, a1
        addi    sp, sp, 1024
        ret
