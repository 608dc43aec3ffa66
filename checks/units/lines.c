/* The program `lines` is this one, built by sparc64-linux-gnu-gcc 12.2 -m32 -mcpu=v8 -msoft-float -ffreestanding -nostdlib
   -static -fno-pie -no-pie -g -gdwarf-5 -O1 -fno-asynchronous-unwind-tables -Wl,-z,noexecstack -Wl,--build-id=none
   -fdebug-prefix-map=$PWD=/build lines.c -o lines */
__asm__(".global _start\n_start: call main\nnop\nmov 1,%g1\nta 16");

static inline int bits_of(unsigned value)
{
    int bits = 0;
    for (; value; value >>= 1)
        bits += value & 1;
    return bits;
}

__attribute__((noinline)) int all_bits(const unsigned *values)
{
    int bits = 0;
    while (*values)
        bits += bits_of(*values++);
    return bits;
}

int main(void)
{
    static const unsigned values[] = {5, 2, 0};
    return all_bits(values);
}
