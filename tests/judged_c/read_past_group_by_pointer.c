/* By a pointer too the group's end writes what the tasks fold into copies of, and it doesn't wait for the reader. */
#include <stdint.h>
static uint64_t x[1], y;
int main(void)
{
    #pragma omp parallel
    #pragma omp single
    {
        uint64_t *p = &x[0];
        #pragma omp task depend(out: y)
        y = x[0];
        #pragma omp taskgroup task_reduction(+: p[0:1])
        {
            #pragma omp task depend(in: x[0]) in_reduction(+: p[0:1])
            p[0] += 1;
        }
    }
    return 0;
}
