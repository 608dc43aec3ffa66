// A heap of jobs by their times: some are put in, some are called off, and the others are done in order.
#include "print.h"

#define MOST 64

struct job {
    unsigned time;
    int name;
};

static struct job heap[MOST];
static int count;

static int is_before(const struct job *a, const struct job *b)
{
    return a->time < b->time || (a->time == b->time && a->name < b->name);
}

static void swap(struct job *a, struct job *b)
{
    struct job job = *a;
    *a = *b;
    *b = job;
}

static void rise(int at)
{
    while (at > 0 && is_before(&heap[at], &heap[(at - 1) / 2])) {
        swap(&heap[at], &heap[(at - 1) / 2]);
        at = (at - 1) / 2;
    }
}

static void sink(int at)
{
    for (;;) {
        int first = at;
        for (int below = 2 * at + 1; below <= 2 * at + 2; below++)
            if (below < count && is_before(&heap[below], &heap[first]))
                first = below;
        if (first == at)
            break;
        swap(&heap[at], &heap[first]);
        at = first;
    }
}

static int put_in(unsigned time, int name)
{
    if (count == MOST)
        return 0;
    heap[count].time = time;
    heap[count].name = name;
    rise(count++);
    return 1;
}

static int call_off(int name)
{
    for (int at = 0; at < count; at++) {
        if (heap[at].name != name)
            continue;
        heap[at] = heap[--count];
        if (at < count) {
            rise(at);
            sink(at);
        }
        return 1;
    }
    return 0;
}

int main(void)
{
    unsigned random = 1, refused = 0, missing = 0, ties = 0, sum = 0, last = 0;
    for (int name = 0; name < 80; name++) {
        random = random * 1103515245 + 12345;
        if (!put_in(random >> 16 & 127, name))
            refused++;
    }
    for (int name = 0; name < 90; name += 3) {
        if (call_off(name) == 0)
            missing++;
    }
    int order = 0;
    do {
        struct job job = heap[0];
        if (job.time < last)
            goto wrong;
        if (order > 0 && job.time == last)
            ties++;
        last = job.time;
        sum += ++order * (unsigned)job.name;
    } while (call_off(heap[0].name) && count > 0);
    print("%u refused, %u missing, %u ties, %d done, %u\n", refused, missing, ties, order, sum);
    return 0;
wrong:
    print("out of order at %u\n", last);
    return 1;
}
