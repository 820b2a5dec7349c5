/* The last run of a session, as C with OpenMP: it prints what the run shows. */
#include <inttypes.h>
#include <stdint.h>
#include <stdio.h>

int main(void)
{
    static uint64_t a[3] = {1, 2};

    #pragma omp parallel
    #pragma omp single
    {
        {
            uint64_t *Product_a_1 = &a[1];
            uint64_t *Product_a_2 = &a[2];
            #pragma omp taskgroup task_reduction(*: Product_a_1[0:1], Product_a_2[0:1])
            {
                #pragma omp task depend(out: a[0]) depend(in: a[1]) in_reduction(*: Product_a_1[0:1])
                {
                    Product_a_1[0] *= 5;
                    a[0] *= 6;
                }
            }
        }
    }

    printf("[");
    printf("]\n");
    return 0;
}
