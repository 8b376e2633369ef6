/* Functions that use much of the stack. */
#include "machine.h"

enum { WORDS = 1800, APART = 40 };

/* So many calls within one another. */
static word within(word n)
{
    volatile word own[4] = {n, n * 3, n ^ 5, n + 7};
    if (n == 0)
        return own[1] + own[2];
    word inner = within(n - 1);
    return inner * 3 + own[n % 4] + own[3];
}

/* The same, of fewer than 60; from 2000 on they leave the stack. */
word deep(word n)
{
    NATIVELY(if (n >= 2000) ends("trap fault");)
    return within(n < 2000 ? n % 60 : n);
}

/* Writes all over the stack: the sum of what was written. */
word fill(word n)
{
    volatile word all[WORDS];
    word sum = 0;
    for (word i = 0; i < WORDS; i += APART)
        all[i] = n + i;
    for (word i = 0; i < WORDS; i += APART)
        sum += all[i];
    return sum;
}

/* The sum of every third word of the stack below this call: 0, whatever the calls before it left there. */
word left_over(void)
{
    word sum = 0;
    ON_THE_MACHINE(
        word top;
        asm volatile("mv %0, sp" : "=r"(top));
        for (word i = 64; i < WORDS; i += 3)
            sum += ((volatile word *)top)[-(long)i];
    )
    return sum;
}

/* Writes so many bytes below the call's own part of the stack, or as many as there are of it. */
word below(word n)
{
    n = n % 3 == 0 ? 20000 : n % 8000 + 1;
    NATIVELY(if (n == 20000) ends("trap fault");)
    ON_THE_MACHINE(
        word top;
        asm volatile("mv %0, sp" : "=r"(top));
        *(volatile unsigned char *)(top - n) = 1;
    )
    return n;
}
