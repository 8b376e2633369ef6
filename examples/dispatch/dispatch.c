/* A calculator whose operations stand in a constant table of functions. */
#include "../services.h"

static long sum(long a, long b) { return a + b; }
static long difference(long a, long b) { return a - b; }
static long product(long a, long b) { return a * b; }
static long greater(long a, long b) { return a > b ? a : b; }

/* The table is constant, so it lies in the local area, which each mapping has for itself, with its own addresses. */
static long (*const operations[])(long, long) = {sum, difference, product, greater};

static long last;

/* What operation `number` makes of two numbers. */
long apply(unsigned long number, long a, long b)
{
    if (number >= sizeof operations / sizeof *operations)
        k_abort(number);
    last = operations[number](a, b);
    return last;
}

/* The same with what was made last. */
long go_on(unsigned long number, long b)
{
    return apply(number, last, b);
}
