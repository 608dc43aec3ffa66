// What start.S asks of the system, by the C library: for builds of the programs by `gcc -m32`.
#include <sys/mman.h>
#include <unistd.h>

#define HEAP 0x80000000u

int system_call(int number, int a, int b, int c)
{
    static unsigned end = HEAP;
    if (number == 3)
        return read(a, (void *)b, c);
    if (number == 4)
        return write(a, (void *)b, c);
    if ((unsigned)a > end)
        mmap((void *)end, (unsigned)a - end, PROT_READ | PROT_WRITE, MAP_PRIVATE | MAP_ANONYMOUS | MAP_FIXED, -1, 0);
    end = (unsigned)a;
    return 0;
}
