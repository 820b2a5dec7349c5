#include <omp.h>
#include <stdio.h>
#include <stdlib.h>

/* A task a thread of the team, each with its own share and its own sum. */
int main(void)
{
    int n = 1000;
    double *values = malloc(n * sizeof *values), *sums = calloc(omp_get_max_threads(), sizeof *sums), sum = 0;
    for (int i = 0; i < n; i++)
        values[i] = 1.0 / (i + 1);
    #pragma omp parallel
    #pragma omp single
    {
        int threads = omp_get_num_threads(), share = (n + threads - 1) / threads;
        for (int t = 0; t < threads; t++) {
            #pragma omp task
            {
                int first = t * share, end = first + share < n ? first + share : n;
                for (int i = first; i < end; i++)
                    sums[t] += values[i];
            }
        }
        #pragma omp taskwait
        for (int t = 0; t < threads; t++)
            sum += sums[t];
    }
    printf("%f\n", sum);
    free(values);
    free(sums);
    return 0;
}
