struct n { int v; struct n *next; };
struct n *makelist(int k) { struct n *h = NULL; while (k > 0) { struct n *p = malloc(sizeof(struct n)); p->v = k; p->next = h; h = p; k = k - 1; } return h; }
int main(void) { struct n *a = makelist(2); struct n *b = makelist(3); putchar('0' + a->v); putchar('0' + b->next->v); return 0; }