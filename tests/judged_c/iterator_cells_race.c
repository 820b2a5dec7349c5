/* The second task waits for a cell of the first one's, and touches another. */
#include <stdint.h>
int main(void)
{
    static uint64_t a[12], x;
    #pragma omp parallel
    #pragma omp single
    {
        #pragma omp task depend(iterator(i = 0:8), out: a[i])
        for (int k = 0; k < 9; k++)
            a[k] = k;
        #pragma omp task depend(in: a[8]) depend(out: x)
        x = a[8];
    }
    return 0;
}
