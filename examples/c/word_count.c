// Counts the lines, words and bytes of its input.
#include "system.h"

static char buffer[4096];

int main(void)
{
    unsigned lines = 0, words = 0, bytes = 0, in_word = 0;
    int count;
    while ((count = read_bytes(buffer, sizeof buffer)) > 0) {
        bytes += count;
        for (int i = 0; i < count; i++) {
            char c = buffer[i];
            if (c == '\n')
                lines++;
            if (c == ' ' || c == '\n' || c == '\t') {
                in_word = 0;
            } else if (!in_word) {
                in_word = 1;
                words++;
            }
        }
    }
    put_number(lines);
    put_text(" ");
    put_number(words);
    put_text(" ");
    put_number(bytes);
    put_text("\n");
    return 0;
}
