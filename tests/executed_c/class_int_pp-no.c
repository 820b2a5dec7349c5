/* Rows that are allocated one by one. */
#include <stdlib.h>
int main(void)
{
    int n = 5;
    int **m = malloc(n * sizeof *m);
    for (int i = 0; i < n; i++)
        m[i] = calloc(n, sizeof **m);
    #pragma omp parallel for
    for (int i = 0; i < n; i++)
        for (int j = 0; j < n; j++)
            m[i][j] = i + j;
    for (int i = 0; i < n; i++)
        free(m[i]);
    free(m);
    return 0;
}
