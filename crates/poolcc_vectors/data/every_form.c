// Every production of the grammar stands here. Run, it only returns.
static struct point { int x, *y; const char (*z)[3]; };
struct other;
extern unsigned long int n = 1, *m[2] = { &n, NULL, };
struct pair { struct point first; } pair = { { 1, NULL, }, };
int (*table[2])(int, char *), count(void), nothing();
void walk(const int *, long (*)(short), int [], int (int), struct point *const p, int q[3]);
long half(short s) { return s / 2; }
int same(int i) { return i; }
void walk(const int *a, long (*f)(short), int b[], int g(int), struct point *const p, int q[3])
{
    int i = 0, j;
    const unsigned char c;
    ;
    i = j += 3;
    if (i) ; else { j--; }
    if (!i) --j;
    while (i < 3) i++;
    do ++i; while (i != EOF);
    for (;;) break;
    for (i = 0; i < 3; i++) continue;
    for (int k = 0, l; k; ) { }
    switch (i) { case 1: case 2 + 1: j = 1; default: ; }
    p->x = (*p).x ? -1 : +'c' * ~2 / 3 % 4 << 1 >> 2;
    j = i & 1 ^ 2 | 3 && 4 || (5 - 6);
    *m[0] = sizeof(int (*)[3]) + sizeof i + sizeof(char *[2]);
    walk(NULL, (long (*)(short))f, b, same, &pair.first, q);
    j = "a" "b"[0];
    i -= 1;
    return;
}
int count(void) { return 1 <= 1 == 2 >= 3 > 4; }
int main(void) { return count(); }
