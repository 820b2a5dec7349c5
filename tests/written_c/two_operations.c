/* The last run of a session, as C with OpenMP: it prints what the run shows. */
#include <inttypes.h>
#include <stdint.h>
#include <stdio.h>

int main(void)
{
    static uint64_t a[3] = {1, 2};

    #pragma omp parallel
    #pragma omp single
    {
        {
            uint64_t *Xor_a_0 = &a[0];
            #pragma omp taskgroup task_reduction(^: Xor_a_0[0:1])
            {
                {
                    uint64_t *And_a_1 = &a[1];
                    #pragma omp taskgroup task_reduction(&: And_a_1[0:1])
                    {
                        #pragma omp task depend(in: a[1]) in_reduction(&: And_a_1[0:1]) depend(in: a[0]) in_reduction(^: Xor_a_0[0:1])
                        {
                            And_a_1[0] &= 2;
                            Xor_a_0[0] ^= 1;
                        }
                    }
                }
            }
        }
    }

    printf("[");
    printf("]\n");
    return 0;
}
