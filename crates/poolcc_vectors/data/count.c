int main(void) {
    int bytes = 0;
    int lines = 0;
    int c;
    while ((c = getchar()) != EOF) {
        bytes = bytes + 1;
        if (c == '\n') lines = lines + 1;
    }
    putchar('0' + lines / 10 % 10);
    putchar('0' + lines % 10);
    putchar('\n');
    return bytes != 0;
}
