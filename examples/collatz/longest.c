/* The longest Collatz walk from one of the numbers 1 to `last`, which is at most 255. What is known of the walk of each
   number stands in four tables on the stack, with entries of 8, 4, 2 and 1 bytes. */
enum { NUMBER, STEPS, HIGHEST, HALVED, LONGER };

long longest(unsigned long last, unsigned long asked)
{
    unsigned long highest[256]; /* the highest number of the walk */
    int longer[256];            /* how many steps more than the walk of the number before; it may be negative */
    unsigned short steps[256];  /* the steps to 1 */
    signed char halved[256];    /* how many more of them halve than triple */
    unsigned long best = 1;     /* the first number with a longest walk */
    if (last > 255)
        last = 255;
    highest[1] = 1;
    longer[1] = 0;
    steps[1] = 0;
    halved[1] = 0;
    for (unsigned long n = 2; n <= last; n++) {
        unsigned long at = n;
        unsigned long top = n;
        long count = 0;
        long more = 0;
        while (at >= n) {
            if (at % 2 == 0) {
                at = at / 2;
                more++;
            } else {
                at = 3 * at + 1;
                more--;
            }
            if (at > top)
                top = at;
            count++;
        }
        highest[n] = highest[at] > top ? highest[at] : top;
        steps[n] = steps[at] + count;
        halved[n] = halved[at] + more;
        longer[n] = steps[n] - steps[n - 1];
        if (steps[n] > steps[best])
            best = n;
    }
    if (asked == NUMBER)
        return best;
    if (asked == STEPS)
        return steps[best];
    if (asked == HIGHEST)
        return highest[best];
    if (asked == HALVED)
        return halved[best];
    return longer[last];
}
