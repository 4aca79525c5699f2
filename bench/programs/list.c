// Builds a list of 1,000,000 nodes, sums it and frees it; writes the sum.
#include <stdio.h>
#include <stdlib.h>

struct node {
    long number;
    struct node *next;
};

void write_number(long number) {
    if (number >= 10)
        write_number(number / 10);
    putchar('0' + (int) (number % 10));
}

int main(void) {
    struct node *list = NULL;
    for (int number = 1; number <= 1000000; number++) {
        struct node *first = malloc(sizeof(struct node));
        if (first == NULL)
            return 1;
        first->number = number;
        first->next = list;
        list = first;
    }
    long sum = 0;
    for (struct node *node = list; node != NULL; node = node->next)
        sum += node->number;
    while (list != NULL) {
        struct node *rest = list->next;
        free(list);
        list = rest;
    }
    write_number(sum);
    putchar('\n');
    return 0;
}
