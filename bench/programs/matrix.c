// Multiplies two matrices of 100 x 100 ints; writes the sum of the product's elements, each with its place's weight.
#include <stdio.h>

int left[100][100], right[100][100], product[100][100];

void fill(void) {
    for (int row = 0; row < 100; row++)
        for (int column = 0; column < 100; column++) {
            left[row][column] = (row * 3 + column * 7) % 101 - 50;
            right[row][column] = (row * 5 + column * 2) % 97 - 48;
        }
}

void multiply(void) {
    for (int row = 0; row < 100; row++)
        for (int column = 0; column < 100; column++) {
            int sum = 0;
            for (int i = 0; i < 100; i++)
                sum += left[row][i] * right[i][column];
            product[row][column] = sum;
        }
}

void write_number(long number) {
    if (number < 0) {
        putchar('-');
        number = -number;
    }
    if (number >= 10)
        write_number(number / 10);
    putchar('0' + (int) (number % 10));
}

int main(void) {
    long sum = 0;
    fill();
    multiply();
    for (int row = 0; row < 100; row++)
        for (int column = 0; column < 100; column++)
            sum += (long) product[row][column] * (row * 100 + column + 1);
    write_number(sum);
    putchar('\n');
    return 0;
}
