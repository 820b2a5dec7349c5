/* Tasks of two regions are no siblings: their items may overlap in part. */
#include <stdint.h>
static uint64_t a[4];
int main(void)
{
    #pragma omp parallel
    #pragma omp single
    {
        #pragma omp task depend(out: a[0:2])
        a[0] = 1;
    }
    #pragma omp parallel
    #pragma omp single
    {
        #pragma omp task depend(out: a[1:2])
        a[1] = 3;
    }
    return 0;
}
