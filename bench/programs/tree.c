// Inserts 100,000 pseudo-random keys into a binary search tree, sums each key times its depth, and frees the tree; writes the
// number of nodes and the sum.
#include <stdio.h>
#include <stdlib.h>

struct node {
    unsigned int key;
    struct node *left;
    struct node *right;
};

struct node *root;
unsigned long nodes;

int insert(unsigned int key) {
    struct node **place = &root;
    while (*place != NULL) {
        if ((*place)->key == key)
            return 1;
        if (key < (*place)->key)
            place = &(*place)->left;
        else
            place = &(*place)->right;
    }
    *place = malloc(sizeof(struct node));
    if (*place == NULL)
        return 0;
    (*place)->key = key;
    (*place)->left = NULL;
    (*place)->right = NULL;
    nodes++;
    return 1;
}

unsigned long weight(struct node *node, unsigned long depth) {
    if (node == NULL)
        return 0;
    return node->key * depth + weight(node->left, depth + 1) + weight(node->right, depth + 1);
}

void free_all(struct node *node) {
    if (node == NULL)
        return;
    free_all(node->left);
    free_all(node->right);
    free(node);
}

void write_number(unsigned long number) {
    if (number >= 10)
        write_number(number / 10);
    putchar('0' + (int) (number % 10));
}

int main(void) {
    unsigned int key = 1;
    for (int i = 0; i < 100000; i++) {
        key = key * 1664525 + 1013904223;
        if (!insert(key))
            return 1;
    }
    write_number(nodes);
    putchar(' ');
    write_number(weight(root, 1));
    putchar('\n');
    free_all(root);
    return 0;
}
