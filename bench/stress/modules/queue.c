/* Functions on the device's queue, and notes. */
#include "machine.h"

/* Puts a word into the queue: 1, or 0 where it is full. */
word put(word n)
{
    return (word)k_out((long)n);
}

/* Takes the oldest word out. */
word take(void)
{
    return (word)k_in();
}

/* Puts up to 300 words into the queue: how many it took. */
word put_many(word count, word first)
{
    word took = 0;
    for (word i = 0; i < count % 301; i++)
        took += (word)k_out((long)(first + i));
    return took;
}

/* Takes up to sixteen words, and makes a note of each. */
word print(word count)
{
    word sum = 0;
    for (word i = 0; i < count % 17; i++)
        sum += (word)k_note(k_in());
    return sum;
}

/* Takes the oldest word, and puts it back behind the newest with a number added. */
word pass(word n)
{
    word oldest = (word)k_in();
    k_note((long)oldest);
    if (!k_out((long)(oldest + n)))
        k_abort((long)oldest);
    return oldest;
}
