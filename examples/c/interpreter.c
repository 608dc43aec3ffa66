// A machine with a stack runs a program of bytes: a Fibonacci number by recursion, and the primes below 60. A switch
// over all instructions, one after the other in number, finds the code of each.
#include "print.h"

enum {
    STOP, PUSH, DROP, COPY, SWAP, ADD, SUBTRACT, MULTIPLY, DIVIDE, REMAINDER, NEGATE, LESS, GO, GO_IF, CALL, RETURN,
    LOAD, STORE, PRINT, KINDS
};

// Places in the program, and variables.
enum { NEXT = 12, TRY = 16, PRIME = 40, COMPOSITE = 43, HIGHER = 64, FIBONACCI = 80, SMALL = 99 };
enum { NUMBER, DIVISOR };

static const signed char program[] = {
    PUSH, 11, CALL, FIBONACCI, PRINT, PUSH, -7, PRINT, PUSH, 2, STORE, NUMBER,
    [NEXT] = PUSH, 2, STORE, DIVISOR,
    [TRY] = LOAD, NUMBER, LOAD, DIVISOR, COPY, MULTIPLY, LESS, GO_IF, PRIME,
    LOAD, NUMBER, LOAD, DIVISOR, REMAINDER, PUSH, 1, LESS, GO_IF, COMPOSITE,
    LOAD, DIVISOR, GO, HIGHER,
    [PRIME] = LOAD, NUMBER, PRINT,
    [COMPOSITE] = LOAD, NUMBER, PUSH, 1, ADD, COPY, STORE, NUMBER, PUSH, 60, LESS, GO_IF, NEXT,
    PUSH, 100, NEGATE, PUSH, 9, DIVIDE, PRINT, STOP,
    [HIGHER] = PUSH, 1, ADD, STORE, DIVISOR, GO, TRY,
    [FIBONACCI] = COPY, PUSH, 2, LESS, GO_IF, SMALL,
    COPY, PUSH, 1, SUBTRACT, CALL, FIBONACCI, SWAP, PUSH, 2, SUBTRACT, CALL, FIBONACCI, ADD,
    [SMALL] = RETURN,
};

static int stack[32], calls[32], variables[2];
static unsigned short made[KINDS];

static int run(const signed char *next)
{
    int *top = stack, *call = calls, other;
    for (;;) {
        unsigned char kind = *next++;
        made[kind < KINDS ? kind : STOP]++;
        switch (kind) {
        case STOP: return 0;
        case PUSH: *++top = *next++; break;
        case DROP: top--; break;
        case COPY: top++; *top = top[-1]; break;
        case SWAP: other = *top; *top = top[-1]; top[-1] = other; break;
        case ADD: top--; *top += top[1]; break;
        case SUBTRACT: top--; *top -= top[1]; break;
        case MULTIPLY: top--; *top *= top[1]; break;
        case DIVIDE: top--; *top /= top[1]; break;
        case REMAINDER: top--; *top %= top[1]; break;
        case NEGATE: *top = -*top; break;
        case LESS: top--; *top = *top < top[1]; break;
        case GO: next = program + *next; break;
        case GO_IF: next = *top-- ? program + *next : next + 1; break;
        case CALL: *++call = next + 1 - program; next = program + *next; break;
        case RETURN: next = program + *call--; break;
        case LOAD: *++top = variables[(int)*next++]; break;
        case STORE: variables[(int)*next++] = *top--; break;
        case PRINT: print("%d ", *top--); break;
        default: return 1;
        }
    }
}

int main(void)
{
    int fault = run(program);
    print("\n");
    for (int kind = 0; kind < KINDS; kind++)
        print(kind + 1 < KINDS ? "%u " : "%u\n", made[kind]);
    return fault;
}
