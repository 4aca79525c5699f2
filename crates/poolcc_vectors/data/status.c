int main(void) {
    return putchar(putchar('7'));
}
