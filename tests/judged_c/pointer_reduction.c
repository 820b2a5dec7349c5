/* By depend(in: ..) of its cell the task that adds is behind the one that writes. */
#include <stdint.h>
#include <stdio.h>
int main(void)
{
    static uint64_t a[2] = {1, 2};
    #pragma omp parallel
    #pragma omp single
    {
        uint64_t *p = &a[0];
        #pragma omp task depend(out: a[0])
        a[0] = 5;
        #pragma omp taskgroup task_reduction(+: p[0:1])
        {
            #pragma omp task depend(in: a[0], a[1]) in_reduction(+: p[0:1])
            p[0] += a[1];
        }
    }
    printf("%lu\n", a[0]);
    return 0;
}
