/* Functions that compilers call of their own accord, also where a source names none of them: for copies of structures,
   arrays with initial values, and loops that copy or clear. A module has no library, so it brings its own. They are
   static, so that they are no exports, and `used`, so that they are there when the compiler thinks of a call late. */
#ifndef FREESTANDING_H
#define FREESTANDING_H

typedef __SIZE_TYPE__ size_of_object;

/* These loops must not become calls of the functions that they are in. */
#if defined(__clang__)
#define FREESTANDING __attribute__((used, no_builtin)) static
#else
#define FREESTANDING __attribute__((used, noinline, optimize("no-tree-loop-distribute-patterns"))) static
#endif

FREESTANDING void *memcpy(void *to, const void *from, size_of_object bytes)
{
    unsigned char *target = to;
    const unsigned char *source = from;
    for (size_of_object i = 0; i < bytes; i++)
        target[i] = source[i];
    return to;
}

FREESTANDING void *memmove(void *to, const void *from, size_of_object bytes)
{
    unsigned char *target = to;
    const unsigned char *source = from;
    if ((__UINTPTR_TYPE__)target - (__UINTPTR_TYPE__)source >= bytes) {
        for (size_of_object i = 0; i < bytes; i++)
            target[i] = source[i];
    } else {
        for (size_of_object i = bytes; i > 0; i--)
            target[i - 1] = source[i - 1];
    }
    return to;
}

FREESTANDING void *memset(void *to, int value, size_of_object bytes)
{
    unsigned char *target = to;
    for (size_of_object i = 0; i < bytes; i++)
        target[i] = (unsigned char)value;
    return to;
}

FREESTANDING int memcmp(const void *left, const void *right, size_of_object bytes)
{
    const unsigned char *a = left;
    const unsigned char *b = right;
    for (size_of_object i = 0; i < bytes; i++)
        if (a[i] != b[i])
            return a[i] < b[i] ? -1 : 1;
    return 0;
}

/* What gcc calls for __builtin_ctz, __builtin_clz and __builtin_popcount. clang has its own code for them. */
#if !defined(__clang__)
FREESTANDING int __ctzdi2(unsigned long number)
{
    int zeros = 0;
    while (zeros < 64 && (number >> zeros & 1) == 0)
        zeros++;
    return zeros;
}

FREESTANDING int __clzdi2(unsigned long number)
{
    int zeros = 0;
    while (zeros < 64 && (number << zeros >> 63) == 0)
        zeros++;
    return zeros;
}

FREESTANDING int __popcountdi2(unsigned long number)
{
    int ones = 0;
    for (; number != 0; number &= number - 1)
        ones++;
    return ones;
}
#endif

#endif
