// Samples of a wave, in halfwords with signs: made, told by differences of bytes, made of these again, moved, sorted
// three ways, and summed up.
#include "print.h"

#define COUNT 48

typedef unsigned size;

void *memcpy(void *to, const void *from, size count)
{
    char *at = to;
    const char *source = from;
    while (count--)
        *at++ = *source++;
    return to;
}

void *memmove(void *to, const void *from, size count)
{
    char *at = to;
    const char *source = from;
    if (at <= source)
        return memcpy(to, from, count);
    while (count--)
        at[count] = source[count];
    return to;
}

static short wave[COUNT], again[COUNT];
static signed char differences[COUNT];

static void make_wave(void)
{
    int height = 0, slope = 900;
    for (int i = 0; i < COUNT; i++) {
        wave[i] = height;
        height += slope;
        slope -= height >> 3;
    }
}

// Each byte is an eighth of a difference, and 127 or -128 where that has no byte.
static void tell_differences(void)
{
    int last = 0;
    for (int i = 0; i < COUNT; i++) {
        int difference = (wave[i] - last) / 8;
        differences[i] = difference > 127 ? 127 : difference < -128 ? -128 : difference;
        last += 8 * differences[i];
    }
}

static void make_again(void)
{
    int last = 0;
    for (int i = 0; i < COUNT; i++)
        again[i] = last += 8 * differences[i];
}

// A CRC of 32 bits.
static unsigned sum_of(const void *from, size count)
{
    const unsigned char *at = from;
    unsigned sum = 0xffffffff;
    while (count--) {
        sum ^= *at++;
        for (int bit = 0; bit < 8; bit++)
            sum = sum & 1 ? sum >> 1 ^ 0xedb88320 : sum >> 1;
    }
    return ~sum;
}

typedef int comparison(short, short);

static int by_value(short a, short b) { return a - b; }
static int by_size(short a, short b) { return (a < 0 ? -a : a) - (b < 0 ? -b : b); }
static int as_unsigned(short a, short b) { return (unsigned short)a - (unsigned short)b; }

static comparison *const comparisons[] = {by_value, by_size, as_unsigned};

static __attribute__((noinline)) void sort(short *from, short *end, comparison *compare)
{
    if (end - from < 2)
        return;
    short *low = from, *high = end - 1, middle = from[(end - from) / 2];
    while (low <= high) {
        while (compare(*low, middle) < 0)
            low++;
        while (compare(*high, middle) > 0)
            high--;
        if (low <= high) {
            short sample = *low;
            *low++ = *high;
            *high-- = sample;
        }
    }
    sort(from, high + 1, compare);
    sort(low, end, compare);
}

int main(void)
{
    make_wave();
    tell_differences();
    make_again();
    int most = 0;
    for (int i = 0; i < COUNT; i++) {
        int off = wave[i] - again[i];
        if (off < 0)
            off = -off;
        if (off > most)
            most = off;
    }
    print("%d %d %d, off by %d at most\n", wave[1], wave[COUNT / 2], differences[COUNT / 2], most);
    print("%x %x\n", sum_of(wave, sizeof wave), sum_of(differences, sizeof differences));
    memmove(again + 5, again, 2 * (COUNT - 5));
    memmove((char *)again + 1, (char *)again + 4, 2 * COUNT - 4);
    print("%x %d\n", sum_of(again, sizeof again), again[COUNT - 2]);
    for (int i = 0; i < 3; i++) {
        memcpy(again, wave, sizeof again);
        sort(again, again + COUNT, comparisons[i]);
        print("%d %d %d, %x\n", again[0], again[1], again[COUNT - 1], sum_of(again, sizeof again));
    }
    return (unsigned char)differences[2];
}
