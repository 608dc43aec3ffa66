// Switches in functions of their own, each with a table whose address is made beside the jump: what is done with a
// number, which letters a word is made of, and how a small machine goes from state to state.
#include "print.h"

static unsigned calls;

static __attribute__((noinline)) unsigned apply(unsigned command, unsigned a, unsigned b)
{
    switch (command) {
    case 0: return a + b;
    case 1: return a - b;
    case 2: return a * b;
    case 3: calls++; return a ^ b;
    case 4: return a << (b & 31);
    case 5: calls += 2; return a >> (b & 31);
    case 6: return a | b;
    case 7: return b ? a / b : 0;
    default: calls += 100; return a;
    }
}

static __attribute__((noinline)) void tell(char letter)
{
    switch (letter) {
    case 'a': print("alpha "); break;
    case 'b': print("bravo "); calls++; break;
    case 'c': print("charlie "); break;
    case 'd': print("delta %d ", (int)calls); break;
    case 'f': print("foxtrot "); break;
    case 'g': print("golf "); calls += 3; break;
    default: print("? ");
    }
}

enum { START, SIGN, WHOLE, POINT, FRACTION, BAD };

static __attribute__((noinline)) int next_state(int state, char c)
{
    int digit = c >= '0' && c <= '9';
    switch (state) {
    case START: return digit ? WHOLE : c == '-' ? SIGN : BAD;
    case SIGN: return digit ? WHOLE : BAD;
    case WHOLE: calls++; return digit ? WHOLE : c == '.' ? POINT : BAD;
    case POINT: return digit ? FRACTION : BAD;
    case FRACTION: calls++; return digit ? FRACTION : BAD;
    default: return BAD;
    }
}

static int is_number(const char *text)
{
    int state = START;
    for (; *text; text++)
        state = next_state(state, *text);
    return state == WHOLE || state == FRACTION;
}

int main(void)
{
    unsigned value = 7;
    for (unsigned command = 0; command < 10; command++) {
        value = apply(command, value + 1000, command + 3);
        print("%u\n", value);
    }
    for (const char *word = "abcdefgh"; *word; word++)
        tell(*word);
    print("\n%d%d%d%d %u\n", is_number("-12.50"), is_number("3."), is_number("77"), is_number("1.2.3"), calls);
    return (int)(calls & 127);
}
