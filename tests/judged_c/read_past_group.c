/* The same, but that nothing awaits the reader: the group's end writes x. */
#include <stdint.h>
static uint64_t x, y, z;
int main(void)
{
    #pragma omp parallel
    #pragma omp single
    {
        #pragma omp task depend(out: z, y) depend(in: x)
        {
            y = x;
            z = 1;
        }
        #pragma omp taskgroup task_reduction(+: x)
        {
            #pragma omp task in_reduction(+: x)
            x += 1;
        }
    }
    return 0;
}
