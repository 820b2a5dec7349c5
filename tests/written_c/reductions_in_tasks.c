/* The last run of a session, as C with OpenMP: it prints what the run shows. */
#include <inttypes.h>
#include <stdint.h>
#include <stdio.h>

int main(void)
{
    static uint64_t a[3] = {1, 2};

    #pragma omp parallel
    #pragma omp single
    {
        {
            uint64_t *Sum_a_0 = &a[0];
            uint64_t *Sum_a_2 = &a[2];
            #pragma omp taskgroup task_reduction(+: Sum_a_0[0:1], Sum_a_2[0:1])
            {
                #pragma omp task depend(in: a[0], a[2]) in_reduction(+: Sum_a_0[0:1], Sum_a_2[0:1])
                {
                    #pragma omp task depend(in: a[2]) in_reduction(+: Sum_a_2[0:1])
                    {
                        Sum_a_2[0] += 1;
                    }
                    #pragma omp taskwait
                }
            }
        }
    }

    printf("[");
    printf("]\n");
    return 0;
}
