int main(void) {
    putchar(getchar());
    putchar(getchar());
    putchar('\n');
}
