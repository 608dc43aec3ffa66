// Works out what its input says, line by line, in fractions: numbers, + - * / and parentheses. Fractions are returned
// by value, operators are called by their addresses, and each parenthesis takes two frames.
#include "print.h"

struct fraction {
    int over, under; // in lowest terms, under above 0; or both 0, for what is no number
};

typedef struct fraction operation(struct fraction, struct fraction);

static int common_divisor(int a, int b) { return b == 0 ? a : common_divisor(b, a % b); }

static __attribute__((noinline)) struct fraction lowest(int over, int under)
{
    if (under == 0)
        return (struct fraction){0, 0};
    int divisor = common_divisor(over, under);
    if ((divisor < 0) != (under < 0))
        divisor = -divisor;
    return (struct fraction){over / divisor, under / divisor};
}

static struct fraction add(struct fraction a, struct fraction b)
{
    return lowest(a.over * b.under + b.over * a.under, a.under * b.under);
}

static struct fraction subtract(struct fraction a, struct fraction b)
{
    return lowest(a.over * b.under - b.over * a.under, a.under * b.under);
}

static struct fraction multiply(struct fraction a, struct fraction b)
{
    return lowest(a.over * b.over, a.under * b.under);
}

static struct fraction divide(struct fraction a, struct fraction b)
{
    return lowest(a.over * b.under, b.under ? a.under * b.over : 0);
}

static const struct operator {
    char sign;
    signed char binds;
    operation *carry_out;
} operators[] = {{'+', 1, add}, {'-', 1, subtract}, {'*', 2, multiply}, {'/', 2, divide}};

static const char *at;

static const struct operator *operator_here(int binds)
{
    for (int i = 0; i < 4; i++)
        if (operators[i].sign == *at && operators[i].binds >= binds)
            return &operators[i];
    return 0;
}

static struct fraction value(void);

// What stands here, as far as operators bind at least so much.
static __attribute__((noinline)) struct fraction expression(int binds)
{
    struct fraction left = value();
    const struct operator *operator;
    while ((operator = operator_here(binds))) {
        at++;
        left = operator->carry_out(left, expression(operator->binds + 1));
    }
    return left;
}

static __attribute__((noinline)) struct fraction value(void)
{
    if (*at == '(') {
        at++;
        struct fraction inner = expression(1);
        if (*at == ')')
            at++;
        return inner;
    }
    int number = 0;
    while (*at >= '0' && *at <= '9')
        number = 10 * number + (*at++ - '0');
    return lowest(number, 1);
}

static char input[4096];

static void put_fraction(struct fraction f)
{
    if (f.under == 0)
        print("no number\n");
    else if (f.under == 1)
        print("%d\n", f.over);
    else
        print("%d/%d\n", f.over, f.under);
}

int main(void)
{
    int length = 0, count, faults = 0;
    while ((count = read_bytes(input + length, sizeof input - 1 - length)) > 0)
        length += count;
    at = input;
    while (*at) {
        struct fraction result = expression(1);
        if (*at == 0 || *at == '\n') {
            put_fraction(result);
        } else {
            print("a fault at byte %d\n", at - input);
            faults++;
            while (*at && *at != '\n')
                at++;
        }
        if (*at)
            at++;
    }
    return faults;
}
