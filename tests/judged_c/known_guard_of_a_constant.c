/* No body is taken that names a[4]. */
#include <stdint.h>
#define N 4
static uint64_t a[N], x;
int main(void)
{
    #pragma omp parallel
    #pragma omp single
    {
        if (N > 4)
            a[4] = 1;
        if (N < 5)
            x = a[N - 1];
        else
            x = a[4];
    }
    return 0;
}
