// Lines with numbers in them.
#include <stdarg.h>
#include "system.h"

static void put_digits(unsigned n, unsigned base)
{
    char digits[32];
    int at = 32;
    do {
        digits[--at] = "0123456789abcdef"[n % base];
        n /= base;
    } while (n);
    write_bytes(1, digits + at, 32 - at);
}

// Puts out a text, in which %d stands for a number, %u for one without a sign, %x for one in hexadecimal digits, and
// %s for a text.
static __attribute__((noinline)) void print(const char *format, ...)
{
    va_list values;
    va_start(values, format);
    while (*format) {
        int plain = 0;
        while (format[plain] && format[plain] != '%')
            plain++;
        if (plain) {
            write_bytes(1, format, plain);
            format += plain;
            continue;
        }
        char kind = format[1];
        if (kind == 's') {
            put_text(va_arg(values, const char *));
        } else {
            int number = va_arg(values, int);
            if (kind == 'd' && number < 0)
                put_text("-");
            put_digits(kind == 'd' && number < 0 ? -(unsigned)number : (unsigned)number, kind == 'x' ? 16 : 10);
        }
        format += 2;
    }
    va_end(values);
}
