/* `s` and `k` are shared by the threads. */
#include <stdio.h>
#include <stdlib.h>

void multiply(int n, double *a, double *b, double *c)
{
    int i, j, k;
    double s;
    #pragma omp parallel for collapse(2)
    for (i = 0; i < n; i++)
        for (j = 0; j < n; j++) {
            s = 0;
            for (k = 0; k < n; k++)
                s += a[i * n + k] * b[k * n + j];
            c[i * n + j] = s;
        }
}

int main(void)
{
    int n = 6;
    double *a = calloc(n * n, sizeof *a), *b = calloc(n * n, sizeof *b), *c = calloc(n * n, sizeof *c);
    multiply(n, a, b, c);
    free(a); free(b); free(c);
    return 0;
}
