/* How many steps the Collatz walk of n takes to reach 1: an odd number goes to 3n + 1, an even one to its half. */
unsigned long collatz(unsigned long n)
{
    unsigned long steps = 0;
    while (n > 1) {
        n = n % 2 == 0 ? n / 2 : 3 * n + 1;
        steps++;
    }
    return steps;
}
