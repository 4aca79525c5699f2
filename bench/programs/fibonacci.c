// The Fibonacci number of 27 by recursion.
#include <stdio.h>

int fibonacci(int n) {
    if (n < 2)
        return n;
    return fibonacci(n - 1) + fibonacci(n - 2);
}

void write_number(int number) {
    if (number >= 10)
        write_number(number / 10);
    putchar('0' + number % 10);
}

int main(void) {
    write_number(fibonacci(27));
    putchar('\n');
    return 0;
}
