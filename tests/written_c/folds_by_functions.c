/* The last run of a session, as C with OpenMP: it prints what the run shows. */
#include <inttypes.h>
#include <stdint.h>
#include <stdio.h>

static uint64_t min(uint64_t one, uint64_t two)
{
    return one < two ? one : two;
}

static uint64_t max(uint64_t one, uint64_t two)
{
    return one < two ? two : one;
}

int main(void)
{
    static uint64_t a[3] = {1, 2};

    #pragma omp parallel
    #pragma omp single
    {
        {
            uint64_t *Max_a_0 = &a[0];
            #pragma omp taskgroup task_reduction(max: Max_a_0[0:1])
            {
                #pragma omp task depend(in: a[1]) depend(in: a[0]) in_reduction(max: Max_a_0[0:1])
                {
                    Max_a_0[0] = max(Max_a_0[0], a[1] * 3);
                }
            }
        }
        a[0] = min(a[0], a[2]);
    }

    printf("[");
    printf("]\n");
    return 0;
}
