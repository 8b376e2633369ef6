/* Functions whose replies depend on their arguments alone, in whatever order the calls of the workers come. */
#include "machine.h"

/* A word out of three, by products, shifts and exclusive ors. */
word mix(word a, word b, word c)
{
    word x = a * 0x9e3779b97f4a7c15 + (b ^ c >> 7);
    for (int i = 0; i < 5; i++) {
        x ^= x >> 29;
        x *= 0xbf58476d1ce4e5b9 + c;
        x += b << (x & 31);
    }
    return x;
}

/* The greatest common divisor of two numbers. */
word common(word a, word b)
{
    while (b != 0) {
        word rest = a % b;
        a = b;
        b = rest;
    }
    return a;
}

/* A power modulo a number below 2^32. */
word power(word base, word exponent, word modulus)
{
    modulus = (modulus & 0xffffffff) | 1;
    word product = 1 % modulus;
    for (base %= modulus; exponent != 0; exponent >>= 1) {
        if (exponent & 1)
            product = product * base % modulus;
        base = base * base % modulus;
    }
    return product;
}

/* Sorts eight numbers on the stack, and makes one of them. */
word sort(word a, word b, word c, word d, word e, word f, word g, word h)
{
    word all[8] = {a, b, c, d, e, f, g, h};
    for (int i = 1; i < 8; i++)
        for (int j = i; j > 0 && all[j - 1] > all[j]; j--) {
            word greater = all[j - 1];
            all[j - 1] = all[j];
            all[j] = greater;
        }
    word sum = 0;
    for (int i = 0; i < 8; i++)
        sum = sum * 31 + all[i];
    return sum;
}

static const unsigned int weights[16] = {1,   2,   5,    10,   20,   50,    100,   200,
                                         500, 1000, 2000, 5000, 10000, 20000, 50000, 100000};

/* The weight of each half-byte, from read-only data. */
word weigh(word n)
{
    word sum = 0;
    for (; n != 0; n >>= 4)
        sum += weights[n & 15];
    return sum;
}

static word sum(word a, word b) { return a + b; }
static word difference(word a, word b) { return a - b; }
static word product(word a, word b) { return a * b; }
static word lesser(word a, word b) { return a < b ? a : b; }

/* The pointers lie in the local area, which each mapping has of its own. */
static word (*const operations[4])(word, word) = {sum, difference, product, lesser};

/* What an operation makes of two numbers, through pointers of the local area. */
word apply(word number, word a, word b)
{
    return operations[number % 4](a, operations[number / 4 % 4](b, a));
}

/* A letter of one of six texts. */
word letter(word number, word at)
{
    const char *text;
    switch (number % 7) {
    case 0: text = "stop"; break;
    case 1: text = "forward"; break;
    case 2: text = "left"; break;
    case 3: text = "right"; break;
    case 4: text = "back"; break;
    case 5: text = "turn around"; break;
    default: return number;
    }
    for (word i = 0; i < at % 16; i++)
        if (text[i] == 0)
            return i;
    return (word)text[at % 16];
}

/* Operations of 32 bits, with sign. */
word narrow(word a, word b)
{
    int x = (int)(unsigned int)a;
    int y = (int)(unsigned int)(b & 0xffff) + 1;
    unsigned int z = (unsigned int)a * (unsigned int)b + ((unsigned int)a >> (b & 31));
    return (word)(long)(x / y) + (word)(long)(x % y) * 3 + (word)(long)(int)z;
}

/* So many rounds, below 2048: a call that takes its time. */
word rounds(word n)
{
    word x = n;
    for (word i = n % 2048; i > 0; i--)
        x = x * 6364136223846793005 + 1442695040888963407;
    return x;
}
