// Copies its input.
int main(void) {
    for (int byte = getchar(); byte >= 0; byte = getchar()) {
        putchar(byte);
    }
    return 0;
}
