/* A counter in zeros, a table of constants, and a call of a service. */
static long counter;
static const long steps[2] = {1, 10};
long k_out(long word);

long add(long n)
{
    counter += n;
    return counter;
}

long step(long n)
{
    return steps[n & 1];
}

long send(long n)
{
    return k_out(n);
}
