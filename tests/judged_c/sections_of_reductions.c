/* A task takes part with just the part of an array that its group combines over: known cells, or the same text. */
#include <stdint.h>
#define N 2
int main(void)
{
    static uint64_t a[8], b[4];
    #pragma omp parallel
    #pragma omp single
    {
        #pragma omp taskgroup task_reduction(+: a[0:2], b)
        {
            #pragma omp task in_reduction(+: a[0:N], b[0:4])
            {
                a[1] += 1;
                for (int i = 0; i < 4; i++) b[i] += 1;
            }
        }
        for (int i = 0; i < N; i++) {
            #pragma omp taskgroup task_reduction(+: a[2 * i:N])
            {
                for (int j = 0; j < 2; j++) {
                    #pragma omp task in_reduction(+: a[2 * i:2])
                    a[2 * i] += 1;
                }
            }
        }
    }
    return 0;
}
