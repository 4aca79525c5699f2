int main(void) {
    int n = 1;
    while (n <= 9) {
        int square = n * n;
        if (square >= 10) putchar('0' + square / 10);
        putchar('0' + square % 10);
        if (n < 9) putchar(' '); else putchar('\n');
        n = n + 1;
    }
    return 0;
}
