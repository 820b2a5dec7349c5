/* The last run of a session, as C with OpenMP: it prints what the run shows. */
#include <inttypes.h>
#include <stdint.h>
#include <stdio.h>

static void show(const uint64_t *cells, size_t count)
{
    for (size_t i = 0; i < count; i++)
        printf("%c%" PRIu64, i == 0 ? '[' : ',', cells[i]);
    printf("]");
}

int main(void)
{
    static uint64_t a[3] = {14, 11, 7};
    static uint64_t common[1] = {15};

    #pragma omp parallel
    #pragma omp single
    {
        {
            uint64_t *And_common_0 = &common[0];
            #pragma omp taskgroup task_reduction(&: And_common_0[0:1])
            {
                #pragma omp task depend(in: a[0]) depend(in: common[0]) in_reduction(&: And_common_0[0:1])
                {
                    And_common_0[0] &= a[0];
                }
                #pragma omp task depend(in: a[1]) depend(in: common[0]) in_reduction(&: And_common_0[0:1])
                {
                    And_common_0[0] &= a[1];
                }
                #pragma omp task depend(in: a[2]) depend(in: common[0]) in_reduction(&: And_common_0[0:1])
                {
                    And_common_0[0] &= a[2];
                }
            }
        }
    }

    printf("[");
    show(&common[0], 1);
    printf("]\n");
    return 0;
}
