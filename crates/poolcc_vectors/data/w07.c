struct n { int v; struct n *next; };
struct n *makelist(int k) { struct n *h = NULL; while (k > 0) { struct n *p = malloc(sizeof(struct n)); p->v = k; p->next = h; h = p; k = k - 1; } return h; }
struct n *g; int main(void) { g = makelist(2); putchar('0' + g->next->v); return 0; }