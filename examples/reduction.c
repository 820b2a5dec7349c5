/* The last run of a session, as C with OpenMP: it prints what the run shows. */
#include <inttypes.h>
#include <stdint.h>
#include <stdio.h>

static void show(const uint64_t *cells, size_t count)
{
    for (size_t i = 0; i < count; i++)
        printf("%c%" PRIu64, i == 0 ? '[' : ',', cells[i]);
    printf("]");
}

int main(void)
{
    static uint64_t a[3] = {1, 2, 3};

    #pragma omp parallel
    #pragma omp single
    {
        {
            uint64_t *Sum_a_0 = &a[0];
            #pragma omp taskgroup task_reduction(+: Sum_a_0[0:1])
            {
                #pragma omp task depend(in: a[0]) in_reduction(+: Sum_a_0[0:1])
                {
                    Sum_a_0[0] += 18446744073709551615ULL;
                }
                #pragma omp task depend(in: a[0]) in_reduction(+: Sum_a_0[0:1])
                {
                    Sum_a_0[0] += 1;
                }
                #pragma omp task depend(in: a[0]) in_reduction(+: Sum_a_0[0:1])
                {
                    Sum_a_0[0] += 5;
                }
            }
        }
    }

    printf("[");
    show(&a[0], 3);
    printf("]\n");
    return 0;
}
