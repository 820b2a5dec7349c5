/* The greatest and the least of an array's numbers, which the tasks of a loop keep by an if. */
#include <stdint.h>
#include <stdio.h>
#define N 4
int main(void)
{
    static uint64_t a[N] = {3, 9, 5, 7};
    uint64_t most = 0, least = 100;
    #pragma omp parallel
    #pragma omp single
    {
        #pragma omp taskgroup task_reduction(max: most)
        {
            for (int i = 0; i < N; i++) {
                #pragma omp task in_reduction(max: most) depend(in: a[i])
                if (most < a[i])
                    most = a[i];
            }
        }
        #pragma omp taskgroup task_reduction(min: least)
        {
            for (int i = 0; i < N; i++) {
                #pragma omp task in_reduction(min: least) depend(in: a[i])
                {
                    if (a[i] < least) {
                        least = a[i];
                    }
                }
            }
        }
    }
    printf("%lu %lu\n", most, least);
    return 0;
}
