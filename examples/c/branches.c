// Sorts its numbers, puts them out with their sum, and counts in how many steps 27 comes to 1 (3n + 1 where n is odd,
// and half of it where it isn't). There is no call in it: all functions become part of the first one.

#define INLINE static inline __attribute__((always_inline))

INLINE int write_bytes(const char *from, int count)
{
    register int number __asm__("g1") = 4;
    register int descriptor __asm__("o0") = 1;
    register const char *at __asm__("o1") = from;
    register int length __asm__("o2") = count;
    __asm__ volatile("ta 0x10" : "+r"(descriptor) : "r"(number), "r"(at), "r"(length) : "memory", "cc");
    return descriptor;
}

INLINE void leave(int status)
{
    register int number __asm__("g1") = 1;
    register int value __asm__("o0") = status;
    __asm__ volatile("ta 0x10" : : "r"(number), "r"(value));
    __builtin_unreachable();
}

INLINE void put_number(int n, char after)
{
    char text[12];
    int at = sizeof text;
    unsigned left = n < 0 ? -(unsigned)n : (unsigned)n;
    text[--at] = after;
    do {
        text[--at] = '0' + left % 10;
        left /= 10;
    } while (left);
    if (n < 0)
        text[--at] = '-';
    write_bytes(text + at, sizeof text - at);
}

static int numbers[] = {31, -41, 59, 26, -53, 58, 97, -93, 23, 84, 0, -62};

#define COUNT ((int)(sizeof numbers / sizeof numbers[0]))

INLINE void sort_numbers(void)
{
    for (int i = 1; i < COUNT; i++) {
        int number = numbers[i], at = i;
        for (; at && numbers[at - 1] > number; at--)
            numbers[at] = numbers[at - 1];
        numbers[at] = number;
    }
}

INLINE int steps_to_one(unsigned n)
{
    int steps = 0;
    for (; n != 1; steps++)
        n = n & 1 ? 3 * n + 1 : n / 2;
    return steps;
}

void _start(void)
{
    int sum = 0;
    sort_numbers();
    for (int i = 0; i < COUNT; i++) {
        put_number(numbers[i], i + 1 < COUNT ? ' ' : '\n');
        sum += numbers[i];
    }
    put_number(sum, ' ');
    put_number(steps_to_one(27), '\n');
    leave(sum & 127);
}
