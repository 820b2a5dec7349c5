#include <stdint.h>
/* Where x isn't 0 the first turn would write before the array. */
uint64_t a[4], x;
int main(void)
{
    #pragma omp parallel
    #pragma omp single
    for (int i = 0; i < 4; i++)
        if (x > 0)
            a[i - 1] = 1;
    return 0;
}
