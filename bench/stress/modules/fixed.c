/* Functions on an immovable part: code, data and constants that no move touches. */
#include "machine.h"

#define FIXED_CODE __attribute__((section(".text.fixed"), noinline))
#define FIXED_DATA __attribute__((section(".data.fixed")))
#define FIXED_ZEROS __attribute__((section(".bss.fixed")))
#define FIXED_CONSTANT __attribute__((section(".rodata.fixed")))

FIXED_CONSTANT static const word limits[4] = {100, 1000, 10000, 100000};
FIXED_DATA word credit = 1000000;
FIXED_ZEROS word booked[4];

/* Books an amount, up to a limit: what is left. */
FIXED_CODE word book(word meter, word amount)
{
    if (booked[meter] + amount > limits[meter] || amount > credit)
        return 0;
    booked[meter] += amount;
    credit -= amount;
    return credit;
}

/* Gives all of a meter back. */
FIXED_CODE word empty(word meter, word amount)
{
    word all = booked[meter];
    booked[meter] = 0;
    credit += all + amount - amount;
    return all;
}

/* A pointer in writable data to the immovable part, whose address stays. */
static word (*volatile action)(word, word) = book;

/* Books an amount, or empties a meter, whichever was chosen last. */
word meter(word number, word amount)
{
    return action(number % 4, amount % 100);
}

/* Chooses what is done. */
word choose(word n)
{
    action = n % 3 == 0 ? empty : book;
    return n % 3;
}

/* What is booked on a meter. */
word on_meter(word number)
{
    return booked[number % 4] + credit;
}

/* Where the immovable data is. */
word fixed_at(void)
{
    word here = 0;
    ON_THE_MACHINE(here = (word)&credit;)
    return here;
}
