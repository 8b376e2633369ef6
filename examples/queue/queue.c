/* A line printer's driver, on the device's queue: jobs of words go in, and come out in order. */
#include "../services.h"

enum { MARK = 0x4a4f42, NO_JOB = 1, FULL = 2 };

static long jobs;     /* jobs that are in the queue */
static long numbered; /* jobs that were ever made */

/* Puts a job of up to four words into the queue: a mark, how many words there are, and these. Its number, from 1. */
long submit(unsigned long words, long a, long b, long c, long d)
{
    const long all[4] = {a, b, c, d};
    if (words > 4)
        k_abort(words);
    if (!k_out(MARK) || !k_out(words))
        k_abort(FULL);
    for (unsigned long i = 0; i < words; i++)
        if (!k_out(all[i]))
            k_abort(FULL);
    jobs++;
    return ++numbered;
}

/* Takes the oldest job out, and makes a note of each of its words. How many they are. */
long print(void)
{
    if (jobs == 0 || k_in() != MARK)
        k_abort(NO_JOB);
    jobs--;
    long words = k_in();
    for (long i = 0; i < words; i++)
        k_note(k_in());
    return words;
}

/* How many jobs wait. */
long waiting(void)
{
    return jobs;
}
