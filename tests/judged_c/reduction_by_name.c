/* in_reduction makes no dependence: the task that adds isn't behind the one that writes. */
#include <stdint.h>
#include <stdio.h>
int main(void)
{
    static uint64_t a[2] = {1, 2};
    uint64_t sum = 0;
    #pragma omp parallel
    #pragma omp single
    {
        #pragma omp task depend(out: sum)
        sum = 5;
        #pragma omp taskgroup task_reduction(+: sum)
        {
            #pragma omp task depend(in: a[1]) in_reduction(+: sum)
            sum += a[1];
        }
    }
    printf("%lu\n", sum);
    return 0;
}
