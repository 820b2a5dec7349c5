/* A sum of numbers of which some are below zero, over the tasks of a loop. */
#include <stdio.h>
#define N 4
int main(void)
{
    static int a[N] = {3, -5, 7, -9};
    long sum = 0;
    #pragma omp parallel
    #pragma omp single
    #pragma omp taskgroup task_reduction(+: sum)
    {
        for (int i = 0; i < N; i++) {
            #pragma omp task in_reduction(+: sum) depend(in: a[i])
            sum += a[i];
        }
    }
    printf("%ld\n", sum);
    return 0;
}
