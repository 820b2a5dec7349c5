/* Two tasks add to one cell of an array, by a pointer. */
#include <stdint.h>
static uint64_t a[2] = {1, 2};
int main(void)
{
    #pragma omp parallel
    #pragma omp single
    {
        uint64_t *sum = &a[0];
        #pragma omp taskgroup task_reduction(+: sum[0:1])
        {
            #pragma omp task depend(in: a[0]) in_reduction(+: sum[0:1])
            sum[0] += 5;
            #pragma omp task depend(in: a[0]) in_reduction(+: sum[0:1])
            sum[0] += 6;
        }
        a[1] = a[0];
    }
    return 0;
}
