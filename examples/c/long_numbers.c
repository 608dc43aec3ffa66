// Numbers of 64 bits and more: products and sums with carries, quotients by the register Y, and digits.
#include "print.h"

typedef unsigned long long u64;
typedef long long s64;

// The quotient of a 64-bit number, whose upper half is below the divisor, and the remainder.
static inline unsigned divide(unsigned upper, unsigned lower, unsigned divisor, unsigned *remainder)
{
    unsigned quotient;
#ifdef __sparc__
    __asm__("wr %%g0, %1, %%y\n\tnop\n\tnop\n\tnop\n\tudiv %2, %3, %0"
            : "=r"(quotient) : "r"(upper), "r"(lower), "r"(divisor));
#else
    quotient = (unsigned)(((u64)upper << 32 | lower) / divisor);
#endif
    *remainder = lower - quotient * divisor;
    return quotient;
}

// Divides a number, whose lowest 32 bits come first, and answers the remainder.
static unsigned divide_all(unsigned *number, int count, unsigned divisor)
{
    unsigned remainder = 0;
    while (count--)
        number[count] = divide(remainder, number[count], divisor, &remainder);
    return remainder;
}

// Puts out a number, and makes it 0.
static __attribute__((noinline)) void put_all(unsigned *number, int count, const char *after)
{
    char text[100];
    int at = sizeof text - 1;
    text[at] = 0;
    while (count) {
        text[--at] = '0' + divide_all(number, count, 10);
        while (count && number[count - 1] == 0)
            count--;
    }
    print("%s%s", text + at, after);
}

static void put_long(u64 n, const char *after)
{
    unsigned halves[] = {(unsigned)n, (unsigned)(n >> 32)};
    put_all(halves, 2, after);
}

static void put_signed(s64 n, const char *after)
{
    if (n < 0)
        print("-");
    put_long(n < 0 ? -(u64)n : (u64)n, after);
}

static __attribute__((noinline)) u64 factorial(unsigned n) { return n < 2 ? 1 : n * factorial(n - 1); }

static __attribute__((noinline)) u64 fibonacci(int n)
{
    u64 before = 0, last = 1;
    while (--n) {
        u64 next = before + last;
        before = last;
        last = next;
    }
    return last;
}

static __attribute__((noinline)) u64 power(u64 base, unsigned exponent)
{
    u64 result = 1;
    for (; exponent; exponent >>= 1) {
        if (exponent & 1)
            result *= base;
        base *= base;
    }
    return result;
}

static u64 state = 88172645463325252u;

static u64 next_random(void)
{
    state ^= state << 13;
    state ^= state >> 7;
    state ^= state << 17;
    return state;
}

static void multiply_all(unsigned *number, int count, unsigned factor)
{
    unsigned carry = 0;
    for (int i = 0; i < count; i++) {
        u64 product = (u64)number[i] * factor + carry;
        number[i] = (unsigned)product;
        carry = product >> 32;
    }
}

int main(void)
{
    put_long(factorial(20), " is 20!\n");
    put_long(fibonacci(93), " is the 93rd Fibonacci number\n");
    put_long(power(3, 40), " is 3 to the 40th\n");
    put_signed((s64)power(-7, 21), " is -7 to the 21st\n");

    s64 least = 0, sum = 0;
    for (int i = 0; i < 20; i++) {
        s64 n = (s64)next_random();
        if (n < least)
            least = n;
        sum -= n >> 3;
    }
    put_signed(least, " is the least of 20 numbers\n");
    put_signed(sum, " is minus the sum of their eighths\n");

    unsigned product[5] = {1};
    for (int i = 2; i <= 33; i++)
        multiply_all(product, 5, i);
    put_all(product, 5, " is 33!\n");
    return 0;
}
