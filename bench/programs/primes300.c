// How many primes there are below 300,000, by trial division.
#include <stdio.h>

int is_prime(int number) {
    for (int divisor = 2; divisor * divisor <= number; divisor++)
        if (number % divisor == 0)
            return 0;
    return 1;
}

void write_number(int number) {
    if (number >= 10)
        write_number(number / 10);
    putchar('0' + number % 10);
}

int main(void) {
    int primes = 0;
    for (int number = 2; number < 300000; number++)
        primes += is_prime(number);
    write_number(primes);
    putchar('\n');
    return 0;
}
