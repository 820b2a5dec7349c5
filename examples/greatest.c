/* The last run of a session, as C with OpenMP: it prints what the run shows. */
#include <inttypes.h>
#include <stdint.h>
#include <stdio.h>

static uint64_t max(uint64_t one, uint64_t two)
{
    return one < two ? two : one;
}

static void show(const uint64_t *cells, size_t count)
{
    for (size_t i = 0; i < count; i++)
        printf("%c%" PRIu64, i == 0 ? '[' : ',', cells[i]);
    printf("]");
}

int main(void)
{
    static uint64_t a[6] = {4, 17, 9, 23, 8, 15};
    static uint64_t top[1];

    #pragma omp parallel
    #pragma omp single
    {
        {
            uint64_t *Max_top_0 = &top[0];
            #pragma omp taskgroup task_reduction(max: Max_top_0[0:1])
            {
                #pragma omp task depend(in: a[0], a[1]) depend(in: top[0]) in_reduction(max: Max_top_0[0:1])
                {
                    Max_top_0[0] = max(Max_top_0[0], a[0]);
                    Max_top_0[0] = max(Max_top_0[0], a[1]);
                }
                #pragma omp task depend(in: a[2], a[3]) depend(in: top[0]) in_reduction(max: Max_top_0[0:1])
                {
                    Max_top_0[0] = max(Max_top_0[0], a[2]);
                    Max_top_0[0] = max(Max_top_0[0], a[3]);
                }
                #pragma omp task depend(in: a[4], a[5]) depend(in: top[0]) in_reduction(max: Max_top_0[0:1])
                {
                    Max_top_0[0] = max(Max_top_0[0], a[4]);
                    Max_top_0[0] = max(Max_top_0[0], a[5]);
                }
            }
        }
    }

    printf("[");
    show(&top[0], 1);
    printf("]\n");
    return 0;
}
