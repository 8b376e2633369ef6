/* Functions that end by a trap or by k_abort. Each counts itself before; what it counted stays. */
#include "machine.h"

static volatile word ended;

word illegal(void)
{
    ended++;
    TRAP("trap illegal", ".word 0");
    return 0;
}

word misaligned(word n)
{
    ended += n;
    if (n % 2 == 0)
        TRAP("trap misaligned", "lw t0, 2(sp)");
    else
        TRAP("trap misaligned", "jalr x0, 2(ra)");
    return 0;
}

word fault(word n)
{
    ended += n;
    switch (n % 4) {
    case 0: TRAP("trap fault", "ld t0, 0(x0)"); break;
    case 1: TRAP("trap fault", "jr x0"); break;
    case 2: TRAP("trap fault", "lui t0, 0x40\n sd x0, 0(t0)"); break;
    case 3: TRAP("trap fault", "addi t0, x0, -8\n ld t0, 0(t0)"); break;
    }
    return 0;
}

word denied(word n)
{
    ended += n;
    if (n % 2 == 0)
        TRAP("trap denied", "auipc t0, 0\n sw x0, 0(t0)");
    else
        TRAP("trap denied", "addi t0, sp, -16\n jr t0");
    return 0;
}

word environment(word n)
{
    ended += n;
    if (n % 2 == 0)
        TRAP("trap ecall", "ecall");
    else
        TRAP("trap ebreak", "ebreak");
    return 0;
}

word forever(void)
{
    ended++;
    TRAP("trap fuel", "1: j 1b");
    return 0;
}

/* Gives the call up with a word, behind up to three notes. */
word give_up(word n)
{
    ended++;
    for (word i = 0; i < n % 4; i++)
        k_note((long)(n + i));
    k_abort((long)n);
}

/* Makes up to 19 notes. The 17th ends the call. */
word note(word n)
{
    ended++;
    for (word i = 0; i < n % 20; i++)
        k_note((long)(n ^ i));
    return n;
}

word count(void)
{
    return ended;
}
