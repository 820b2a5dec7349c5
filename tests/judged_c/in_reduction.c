/* A sum over eight tasks of a loop. */
#include <stdint.h>
#include <stdio.h>
#define N 8
int main(void)
{
    static uint64_t a[N] = {1, 2, 3, 4, 5, 6, 7, 8};
    uint64_t sum = 0;
    #pragma omp parallel
    #pragma omp single
    #pragma omp taskgroup task_reduction(+: sum)
    {
        for (int i = 0; i < N; i++) {
            #pragma omp task in_reduction(+: sum) depend(in: a[i])
            sum += a[i];
        }
    }
    printf("%lu\n", sum);
    return 0;
}
