/* Counts the lines, words and bytes of its input. */
#include <stdio.h>

struct counts {
    unsigned long lines;
    unsigned long words;
    unsigned long bytes;
};

static int is_space(int byte) { return byte == ' ' || (byte >= '\t' && byte <= '\r'); }

void count(struct counts *counts) {
    int byte, in_word = 0;
    while ((byte = getchar()) != EOF) {
        counts->bytes++;
        if (byte == '\n')
            counts->lines++;
        if (is_space(byte)) {
            in_word = 0;
        } else if (!in_word) {
            in_word = 1;
            counts->words++;
        }
    }
}

void write_number(unsigned long number) {
    char digits[20];
    int length = 0;
    do {
        digits[length++] = '0' + number % 10;
        number /= 10;
    } while (number != 0);
    while (length > 0)
        putchar(digits[--length]);
}

int main(void) {
    struct counts counts;
    counts.lines = counts.words = counts.bytes = 0;
    count(&counts);
    write_number(counts.lines);
    putchar(' ');
    write_number(counts.words);
    putchar(' ');
    write_number(counts.bytes);
    putchar('\n');
    return 0;
}
