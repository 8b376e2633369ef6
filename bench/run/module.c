/* What is called: nothing, and a call that makes so many steps. */

long empty(void)
{
    return 0;
}

/* Twice as many steps as n, which is above 0, and two. */
long busy(unsigned long n)
{
    asm volatile("1: addi %0, %0, -1\n bnez %0, 1b" : "+r"(n));
    return 0;
}
