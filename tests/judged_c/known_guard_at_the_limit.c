/* Written out these are 19,998 statements: three in each turn but the first, which has two, and the region. */
#include <stdint.h>
static uint64_t a[6666];
int main(void)
{
    #pragma omp parallel
    #pragma omp single
    for (int i = 0; i < 6666; i++)
        if (i > 0)
            a[i] = a[i - 1];
    return 0;
}
