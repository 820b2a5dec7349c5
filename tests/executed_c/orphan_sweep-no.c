#include <stdlib.h>
struct grid { int n; double *cur, *next; };
static void sweep(struct grid *g) {
#pragma omp for
    for (int i = 1; i < g->n - 1; i++)
        g->next[i] = 0.5 * (g->cur[i - 1] + g->cur[i + 1]);
#pragma omp single
    {
        double *t = g->cur;
        g->cur = g->next;
        g->next = t;
    }
}
int main(void) {
    struct grid g = {16, calloc(16, sizeof(double)), calloc(16, sizeof(double))};
#pragma omp parallel
    for (int t = 0; t < 4; t++)
        sweep(&g);
    free(g.cur);
    free(g.next);
    return 0;
}
