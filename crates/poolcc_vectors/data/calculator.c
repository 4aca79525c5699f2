/* Reads lines such as `12 + 30` and writes what each gives. An operator is looked up in a table of functions. */
#include <stdio.h>

struct operation {
    int sign;
    int needs_divisor;
    long (*apply)(long, long);
};

static long sum(long left, long right) { return left + right; }
static long difference(long left, long right) { return left - right; }
static long product(long left, long right) { return left * right; }
static long quotient(long left, long right) { return left / right; }
static long remainder_of(long left, long right) { return left % right; }

struct operation operations[5] = {
    {'+', 0, sum}, {'-', 0, difference}, {'*', 0, product}, {'/', 1, quotient}, {'%', 1, remainder_of},
};

/* the byte that was read last */
int byte;

void advance(void) { byte = getchar(); }

void pass_spaces(void) {
    while (byte == ' ' || byte == '\t')
        advance();
}

long read_number(void) {
    long number = 0;
    pass_spaces();
    while (byte >= '0' && byte <= '9') {
        number = number * 10 + (byte - '0');
        advance();
    }
    return number;
}

void write_text(const char *text) {
    for (; *text != '\0'; text++)
        putchar(*text);
}

void write_number(long number) {
    if (number < 0) {
        putchar('-');
        number = -number;
    }
    if (number >= 10)
        write_number(number / 10);
    putchar('0' + (int) (number % 10));
}

struct operation *operation_of(int sign) {
    int i;
    for (i = 0; i < 5; i++)
        if (operations[i].sign == sign)
            return &operations[i];
    return NULL;
}

void answer(long left, struct operation *operation, long right) {
    if (operation == NULL)
        write_text("no such operator");
    else if (operation->needs_divisor && right == 0)
        write_text("division by zero");
    else
        write_number(operation->apply(left, right));
    putchar('\n');
}

int main(void) {
    advance();
    while (byte != EOF) {
        long left = read_number();
        pass_spaces();
        struct operation *operation = operation_of(byte);
        if (byte != '\n' && byte != EOF)
            advance();
        answer(left, operation, read_number());
        while (byte != '\n' && byte != EOF)
            advance();
        if (byte == '\n')
            advance();
    }
    return 0;
}
