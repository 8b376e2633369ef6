/* Functions on data that all calls of the module share. */
#include "machine.h"

static word total;
static word cells[64];
static unsigned char bytes[32];
static short halves[16];
static int numbers[16] = {3, 1, 4, 1, 5, 9, 2, 6, 5, 3, 5, 8, 9, 7, 9, 3};
word calls; /* not static, so its address is a word of the local area */

/* Adds a number: the sum so far. */
word add(word n)
{
    calls++;
    total += n;
    return total;
}

/* Adds a number to a cell: the cell. */
word cell(word at, word n)
{
    calls++;
    cells[at % 64] += n;
    return cells[at % 64];
}

/* Data of one, two and four bytes. */
word small(word at, word n)
{
    calls++;
    bytes[at % 32] += (unsigned char)n;
    halves[at % 16] = (short)(unsigned short)((word)halves[at % 16] + n);
    numbers[at % 16] = (int)(unsigned int)((word)numbers[at % 16] * 5 + n);
    return (word)(long)numbers[at % 16] + (word)(long)halves[at % 16] * 7 + bytes[at % 32];
}

/* How many calls there were, of these functions. */
word counted(void)
{
    return calls;
}

/* Reads the sum, takes its time, and writes it: two calls at once would lose one of their numbers. */
word slowly(word n, word length)
{
    word before = total;
    volatile word left = length % 512;
    while (left > 0)
        left--;
    total = before + n;
    calls++;
    return total;
}
