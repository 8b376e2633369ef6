/* Functions that tell where they run, and what lies there. check.py compares what those that end in _at reply with the
   places of the report; natively they reply 0. */
#include "machine.h"

static volatile word cell = 1;
volatile word shared = 2; /* not static, so its address is a word of the local area */

static word function(void) { return shared; }
static word (*const pointers[1])(void) = {function};

/* Where its own code is. */
word code_at(void)
{
    word here = 0;
    ON_THE_MACHINE(asm volatile("auipc %0, 0" : "=r"(here));)
    return here;
}

/* Where its part of the stack is. */
word stack_at(void)
{
    word here = 0;
    ON_THE_MACHINE(asm volatile("mv %0, sp" : "=r"(here));)
    return here;
}

/* Where its data is. */
word data_at(void)
{
    word here = 0;
    ON_THE_MACHINE(here = (word)&cell;)
    return here;
}

/* The same by a word of the local area. */
word shared_at(void)
{
    word here = 0;
    ON_THE_MACHINE(here = (word)&shared;)
    return here;
}

/* What a pointer of the local area says. */
word pointer_at(void)
{
    word here = 0;
    ON_THE_MACHINE(here = *(word volatile *)&pointers[0];)
    return here;
}

static volatile word *volatile kept;
NATIVELY(static word kept_under;)

/* Keeps the address of its data, and gives that a number. */
word keep(word n)
{
    cell = n;
    kept = &cell;
    NATIVELY(kept_under = under;)
    return n;
}

/* Reads at the address that was kept: a fault where the call that kept it ran under another mapping. */
word follow(void)
{
    NATIVELY(if (kept != 0 && kept_under != under) ends("trap fault");)
    return kept != 0 ? *kept : 0;
}

/* Adds a number to its data, by its own address and through a pointer. */
word change(word n)
{
    cell += n;
    shared ^= n;
    return cell + pointers[0]();
}
