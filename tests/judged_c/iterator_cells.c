/* Each value of an iterator is an item of its own, and so the same as the cell beside it. */
#include <stdint.h>
int main(void)
{
    static uint64_t a[12], x;
    #pragma omp parallel
    #pragma omp single
    {
        #pragma omp task depend(iterator(i = 0:12), out: a[i])
        for (int k = 0; k < 12; k++)
            a[k] = k;
        #pragma omp task depend(in: a[3]) depend(out: x)
        x = a[3];
        #pragma omp task depend(iterator(i = 2:5), inout: a[i])
        a[2] = a[4];
    }
    return 0;
}
