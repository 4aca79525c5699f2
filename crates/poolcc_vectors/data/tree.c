/* Reads whole numbers, puts each into a binary search tree, and writes them in order, each once, with how often it came. */
#include <stdio.h>
#include <stdlib.h>

struct node {
    long number;
    int times;
    struct node *left;
    struct node *right;
};

struct node *new_node(long number) {
    struct node *node = malloc(sizeof(struct node));
    if (node == NULL)
        exit(1);
    node->number = number;
    node->times = 0;
    node->left = NULL;
    node->right = NULL;
    return node;
}

void insert(struct node **root, long number) {
    struct node **place = root;
    while (*place != NULL && (*place)->number != number)
        place = number < (*place)->number ? &(*place)->left : &(*place)->right;
    if (*place == NULL)
        *place = new_node(number);
    (*place)->times++;
}

void write_number(long number) {
    if (number < 0) {
        putchar('-');
        number = -number;
    }
    if (number >= 10)
        write_number(number / 10);
    putchar('0' + (int) (number % 10));
}

void write_in_order(const struct node *root) {
    if (root == NULL)
        return;
    write_in_order(root->left);
    write_number(root->number);
    putchar(' ');
    write_number(root->times);
    putchar('\n');
    write_in_order(root->right);
}

void free_all(struct node *root) {
    if (root == NULL)
        return;
    free_all(root->left);
    free_all(root->right);
    free(root);
}

int main(void) {
    struct node *root = NULL;
    int byte = getchar();
    while (byte != EOF) {
        int negative = byte == '-';
        if (negative)
            byte = getchar();
        if (byte >= '0' && byte <= '9') {
            long number = 0;
            while (byte >= '0' && byte <= '9') {
                number = number * 10 + (byte - '0');
                byte = getchar();
            }
            insert(&root, negative ? -number : number);
        } else if (!negative) {
            byte = getchar();
        }
    }
    write_in_order(root);
    free_all(root);
    return 0;
}
