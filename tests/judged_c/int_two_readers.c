/* One task writes, and two that copy wait for it. */
#include <stdio.h>
int main(void)
{
    int i = 0, j, k;
    #pragma omp parallel
    #pragma omp single
    {
        #pragma omp task depend(out: i)
        i = 1;
        #pragma omp task depend(in: i)
        j = i;
        #pragma omp task depend(in: i)
        k = i;
    }
    printf("j=%d k=%d\n", j, k);
    return 0;
}
