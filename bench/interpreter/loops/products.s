# products: multiplications, shifts and branches, beside two sums a round. A round has 20 instructions
# whichever way its branches go, and what stands around the rounds has 20 as well, so a call with n makes
# 20 * (n + 1) steps.

        .text
        .globl  products
products:
        lui     a2, 0x12345
        addi    a2, a2, 0x679           # an odd factor
        li      a1, 1
        li      t0, 0
        .rept   14
        mul     a1, a1, a2
        .endr
1:      mul     a1, a1, a2              # the next number
        srli    a3, a1, 58
        sll     a4, a1, a3
        bltz    a4, 2f                  # about half of them go each way
        mulhu   a5, a1, a4
        srai    a5, a5, 3
        mulw    a6, a5, a2
        j       3f
2:      mulh    a5, a1, a4
        slli    a5, a5, 7
        mulw    a6, a5, a4
        srlw    a6, a6, a3
3:      bltu    a6, a1, 4f
4:      mul     a6, a6, a5
        srl     a7, a6, a3
        sra     a4, a6, a3
        bge     a7, a4, 5f
5:      mulhsu  a5, a7, a4
        sllw    a7, a5, a3
        add     t0, t0, a7
        slli    a6, t0, 9
        bne     a6, a4, 6f
6:      addi    a0, a0, -1
        bnez    a0, 1b
        mv      a0, t0
        ret
