// Counts the primes below a number, ten million unless an argument says another: a long run without a system
// call in between. The numbers stand in the program's own data.
#include "system.h"

#define MOST 16000000

static unsigned char is_composite[MOST];

static unsigned number_in(const char *text)
{
    unsigned n = 0;
    while (*text >= '0' && *text <= '9')
        n = 10 * n + (*text++ - '0');
    return n;
}

int main(int count, char **arguments)
{
    unsigned most = count > 1 ? number_in(arguments[1]) : 10000000;
    if (most > MOST)
        return 1;
    unsigned primes = 0;
    for (unsigned n = 2; n < most; n++) {
        if (is_composite[n])
            continue;
        primes++;
        if (n <= 0xffff)
            for (unsigned multiple = n * n; multiple < most; multiple += n)
                is_composite[multiple] = 1;
    }
    put_number(primes);
    put_text("\n");
    return 0;
}
