/* One task writes, and two that copy wait for it. */
#include <stdint.h>
#include <stdio.h>
int main(void)
{
    uint64_t i = 0, j = 0, k = 0;
    #pragma omp parallel
    #pragma omp single
    {
        #pragma omp task depend(out: i)
        i = 1;
        #pragma omp task depend(in: i)
        j = i;
        #pragma omp task depend(in: i)
        k = i;
    }
    printf("j=%lu k=%lu\n", j, k);
    return 0;
}
