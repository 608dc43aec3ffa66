// Counts the ways to place eight queens, by a recursion of nine calls, and then how deep a chain of calls
// comes back: 200 windows are saved and loaded again.
#include "system.h"

static int place(int size, int row, unsigned columns, unsigned left, unsigned right)
{
    if (row == size)
        return 1;
    int ways = 0;
    for (unsigned free = ~(columns | left | right) & ((1u << size) - 1); free; free &= free - 1) {
        unsigned queen = free & -free;
        ways += place(size, row + 1, columns | queen, (left | queen) << 1, (right | queen) >> 1);
    }
    return ways;
}

static __attribute__((noinline, optimize("no-optimize-sibling-calls"))) int depth(int n)
{
    if (n == 0)
        return 0;
    return 1 + depth(n - 1);
}

int main(void)
{
    put_number(place(8, 0, 0, 0, 0));
    put_text(" ways, ");
    volatile int calls = 200;
    put_number(depth(calls));
    put_text(" calls\n");
    return 0;
}
