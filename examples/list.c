/* Makes a list of three nodes, and writes their values. */
struct n {
    int v;
    struct n *next;
};

struct n *makelist(int k) {
    struct n *h = NULL;
    while (k > 0) {
        struct n *p = malloc(sizeof(struct n));
        p->v = k;
        p->next = h;
        h = p;
        k = k - 1;
    }
    return h;
}

int main(void) {
    struct n *l = makelist(3);
    while (l != NULL) {
        putchar('0' + l->v);
        l = l->next;
    }
    return 0;
}
