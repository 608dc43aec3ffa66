/* What debug information has marks for without instructions: barriers, and conditions as values. */
#define BARRIER __asm__ volatile("" ::: "memory")

static int values[] = {5, 0, 2, 9, 4};

static int is_large(int v)
{
    BARRIER;
    return v && v > 3;
}

static int length(const char *s)
{
    int n = 0;
    BARRIER;
    while (*s && *s != '\n')
        s++, n++;
    return n;
}

int main(void)
{
    int found = 0;
    for (int i = 0; i < 5; i++)
        found += is_large(values[i]);
    return found + length("a line\nanother");
}
