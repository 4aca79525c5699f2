/* Sorts the digits that it reads into a list, and writes them in order. */
struct node {
    int digit;
    struct node *next;
};

struct node *inserted(struct node *list, int digit) {
    struct node *first = malloc(sizeof(struct node));
    first->digit = digit;
    if (list == NULL || list->digit >= digit) {
        first->next = list;
        return first;
    }
    struct node *before = list;
    while (before->next != NULL && before->next->digit < digit)
        before = before->next;
    first->next = before->next;
    before->next = first;
    return list;
}

int main(void) {
    struct node *list = NULL;
    int c;
    while ((c = getchar()) != EOF)
        if (c >= '0' && c <= '9')
            list = inserted(list, c);
    while (list != NULL) {
        struct node *rest = list->next;
        putchar(list->digit);
        free(list);
        list = rest;
    }
    putchar('\n');
    return 0;
}
