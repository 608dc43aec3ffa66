// A search tree of numbers, and a fault on purpose: what `take_out` gives back for the next number is still in the tree. So
// the search for 20 comes to a node that is no longer one, and traps: a load from an address that isn't aligned.
#include "system.h"

struct node {
    struct node *less, *more;
    int number;
};

static struct node nodes[16];
static struct node *root, *spare;

static struct node **place_of(int number)
{
    struct node **place = &root;
    while (*place && (*place)->number != number)
        place = number < (*place)->number ? &(*place)->less : &(*place)->more;
    return place;
}

static __attribute__((noinline)) void put_in(int number)
{
    struct node *node = spare;
    spare = node->more;
    *node = (struct node){.number = number};
    *place_of(number) = node;
}

static __attribute__((noinline)) void take_out(int number)
{
    struct node *node = *place_of(number);
    // `*place_of(number) = 0` is missing. A bit of the address says that the node is spare.
    *node = (struct node){(struct node *)((unsigned)node | 1), spare, number};
    spare = node;
}

static __attribute__((noinline)) int has(int number) { return *place_of(number) != 0; }

int main(void)
{
    for (int i = 0; i < 16; i++)
        nodes[i].more = i < 15 ? &nodes[i + 1] : 0;
    spare = nodes;
    put_in(50);
    put_in(30);
    put_in(70);
    put_text(has(30) ? "30 is in\n" : "30 is not in\n");
    take_out(30);
    put_text(has(20) ? "20 is in\n" : "20 is not in\n");
    return 0;
}
