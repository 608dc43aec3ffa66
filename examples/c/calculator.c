// Carries out what its input says: digits make numbers, which go onto a stack; + - * / take two and give one; p
// prints the last one, d doubles it on the stack, c clears the stack. The commands are told apart by a switch.
#include "system.h"

static int stack[100];
static int height;

static int pop(void) { return height > 0 ? stack[--height] : 0; }

static void push(int n)
{
    if (height < 100)
        stack[height++] = n;
}

static void put_signed(int n)
{
    if (n < 0) {
        put_text("-");
        put_number(-(unsigned)n);
    } else {
        put_number(n);
    }
}

static int carry_out(char command)
{
    int second;
    switch (command) {
    case '*': push(pop() * pop()); break;
    case '+': push(pop() + pop()); break;
    case ',': break;
    case '-': second = pop(); push(pop() - second); break;
    case '.': put_text("\n"); break;
    case '/':
        second = pop();
        if (second == 0)
            return 1;
        push(pop() / second);
        break;
    case 'c': height = 0; break;
    case 'd': second = pop(); push(second); push(second); break;
    case 'p': put_signed(height > 0 ? stack[height - 1] : 0); put_text("\n"); break;
    case ' ': case '\n': break;
    default: return 2;
    }
    return 0;
}

int main(void)
{
    char c;
    int number = 0, in_number = 0;
    while (read_bytes(&c, 1) == 1) {
        if (c >= '0' && c <= '9') {
            number = 10 * number + (c - '0');
            in_number = 1;
            continue;
        }
        if (in_number) {
            push(number);
            number = in_number = 0;
        }
        int fault = carry_out(c);
        if (fault)
            return fault;
    }
    return 0;
}
