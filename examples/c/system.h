// What the programs ask of the system, and decimal numbers.

int system_call(int number, int a, int b, int c);

static inline int read_bytes(void *to, int count) { return system_call(3, 0, (int)to, count); }

static inline void write_bytes(int descriptor, const void *from, int count)
{
    system_call(4, descriptor, (int)from, count);
}

static inline int set_heap_end(unsigned end) { return system_call(17, (int)end, 0, 0); }

static inline int length_of(const char *text)
{
    int n = 0;
    while (text[n])
        n++;
    return n;
}

static inline void put_text(const char *text) { write_bytes(1, text, length_of(text)); }

static inline void put_number(unsigned n)
{
    char digits[10];
    int at = 10;
    do {
        digits[--at] = '0' + n % 10;
        n /= 10;
    } while (n);
    write_bytes(1, digits + at, 10 - at);
}
