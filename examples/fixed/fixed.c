/* A meter. Its books are kept in the immovable part, which no move touches: code in .text.fixed, data in .data.fixed and
   .bss.fixed, constants in .rodata.fixed. The exports and the rates are in the movable part. What the movable part
   names of the immovable part is not static: so the compiler takes its address from a table, and not by a distance. */
#define FIXED_CODE __attribute__((section(".text.fixed"), noinline))
#define FIXED_DATA __attribute__((section(".data.fixed")))
#define FIXED_ZEROS __attribute__((section(".bss.fixed")))
#define FIXED_CONSTANT __attribute__((section(".rodata.fixed")))

FIXED_CONSTANT static const long limits[3] = {100, 1000, 10000};
FIXED_DATA static long credit = 5000;
FIXED_ZEROS long booked[3];

/* Books an amount on a meter, up to its limit, and tells what is left of the credit. */
FIXED_CODE long book(unsigned long meter, long amount)
{
    if (meter >= 3 || booked[meter] + amount > limits[meter] || amount > credit)
        return -1;
    booked[meter] += amount;
    credit -= amount;
    return credit;
}

/* Books the amount back. */
FIXED_CODE long give_back(unsigned long meter, long amount)
{
    return book(meter, -amount);
}

/* A pointer in writable data may point to the immovable part, whose address stays. One to the movable part is refused. */
static long (*action)(unsigned long, long) = book;

static const long rates[3] = {1, 3, 7};

/* Books so many units on a meter, or gives them back. */
long meter(unsigned long number, long units)
{
    if (number >= 3)
        return -1;
    return action(number, units * rates[number]);
}

/* From now on units are given back, or booked where `back` is 0. */
long reverse(long back)
{
    action = back ? give_back : book;
    return back != 0;
}

/* What was booked on a meter. */
long total(unsigned long number)
{
    return number < 3 ? booked[number] : 0;
}
