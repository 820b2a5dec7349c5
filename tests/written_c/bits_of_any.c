/* The last run of a session, as C with OpenMP: it prints what the run shows. */
#include <inttypes.h>
#include <stdint.h>
#include <stdio.h>

int main(void)
{
    static uint64_t a[3] = {1, 2};

    #pragma omp parallel
    #pragma omp single
    {
        {
            uint64_t *Or_a_0 = &a[0];
            #pragma omp taskgroup task_reduction(|: Or_a_0[0:1])
            {
                #pragma omp task depend(in: a[0]) in_reduction(|: Or_a_0[0:1])
                {
                    Or_a_0[0] |= 8;
                }
            }
        }
    }

    printf("[");
    printf("]\n");
    return 0;
}
