/* The last run of a session, as C with OpenMP: it prints what the run shows. */
#include <inttypes.h>
#include <stdint.h>
#include <stdio.h>

static void show(const uint64_t *cells, size_t count)
{
    for (size_t i = 0; i < count; i++)
        printf("%c%" PRIu64, i == 0 ? '[' : ',', cells[i]);
    printf("]");
}

int main(void)
{
    static uint64_t a[3] = {1, 2, 3};

    #pragma omp parallel
    #pragma omp single
    {
        {
            uint64_t *Product_a_1 = &a[1];
            #pragma omp taskgroup task_reduction(*: Product_a_1[0:1])
            {
                #pragma omp task depend(in: a[1]) in_reduction(*: Product_a_1[0:1])
                {
                    Product_a_1[0] *= 5;
                }
                #pragma omp task depend(in: a[1]) in_reduction(*: Product_a_1[0:1])
                {
                    Product_a_1[0] *= 9223372036854775809ULL;
                }
            }
        }
    }

    printf("[");
    show(&a[0], 3);
    printf("]\n");
    return 0;
}
