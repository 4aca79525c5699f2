// The upper bits of the 3,000,000th number of a linear congruential generator.
#include <stdio.h>

void write_number(unsigned long number) {
    if (number >= 10)
        write_number(number / 10);
    putchar('0' + (int) (number % 10));
}

int main(void) {
    unsigned long seed = 1;
    for (int round = 0; round < 3000000; round++)
        seed = seed * 6364136223846793005ul + 1442695040888963407ul;
    write_number(seed >> 33);
    putchar('\n');
    return 0;
}
