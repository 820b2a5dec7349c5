#include <stdint.h>
uint64_t a[4], x;
int main(void)
{
    #pragma omp parallel
    #pragma omp single
    {
        uint64_t *p = &a[0];
        #pragma omp taskgroup task_reduction(+: x, p[0:1])
        {
            #pragma omp task in_reduction(+: x)
            {
                #pragma omp task depend(in: a[0]) in_reduction(+: p[0:1])
                p[0] += 1;
            }
        }
    }
    return 0;
}
